gap> START_TEST( "words.tst" );
gap> W := CoxeterShellGroup( "A", 3 );
<Coxeter group type A 3>
gap> Print( W, "\n" );
CoxeterShellGroup( "type A 3" )
gap> CoxeterShellRank( W );
3
gap> Display( CoxeterShellMatrix( W ) );
[ [  1,  3,  2 ],
  [  3,  1,  3 ],
  [  2,  3,  1 ] ]
gap> W = CoxeterShellGroup( "type A 3" ) and W = CoxeterShellGroup( [ [ 1, 3, 2 ], [ 3, 1, 3 ], [ 2, 3, 1 ] ] );
true
gap> W = CoxeterShellGroup( "matrix 3 3 2 4" ) or W = CoxeterShellGroup( "A", 2 );
false
gap> [ NormalFormOfWord( W, "2312" ), NormalFormOfWord( W, [ 2, 3, 1, 2 ] ), NormalFormOfWord( W, "e" ), NormalFormOfWord( W, [] ) ];
[ [ 2, 1, 3, 2 ], [ 2, 1, 3, 2 ], [  ], [  ] ]
gap> [ LengthOfWord( W, "23122" ), InverseOfWord( W, "123" ), ProductOfWords( W, "12", [ 2, 3 ] ), LongestWord( W ) ];
[ 3, [ 3, 2, 1 ], [ 1, 3 ], [ 1, 2, 1, 3, 2, 1 ] ]
gap> [ LeftDescents( W, "132" ), RightDescents( W, "132" ), LeftDescents( W, [] ) ];
[ [ 1, 3 ], [ 2 ], [  ] ]
gap> List( [ "e", "1", "12", "123", "13" ], w -> OrderOfWord( W, w ) );
[ 1, 2, 3, 4, 2 ]
gap> [ IsBruhatLessOrEqual( W, "13", "123" ), IsBruhatLessOrEqual( W, "31", "32" ) ];
[ true, false ]
gap> BruhatInterval( W, "12", "1232" );
[ [ 1, 2 ], [ 1, 2, 3 ], [ 1, 3, 2 ], [ 1, 2, 3, 2 ] ]
gap> BruhatInterval( W, "12", "21" );
[  ]
gap> BruhatCoatoms( W, "123" );
[ [ 1, 2 ], [ 1, 3 ], [ 2, 3 ] ]
gap> BettiNumbersOfWord( W, LongestWord( W ) );
[ 1, 3, 5, 6, 5, 3, 1 ]
gap> IntersectionBettiNumbersOfWord( W, "2132" );
[ 1, 4, 6, 4, 1 ]
gap> V := CoxeterShellGroup( [ [ 1, infinity ], [ infinity, 1 ] ] );
<Coxeter group matrix 2 0>
gap> CoxeterShellMatrix( V );
[ [ 1, infinity ], [ infinity, 1 ] ]
gap> [ LengthOfWord( V, "1212121212" ), OrderOfWord( V, "12" ), OrderOfWord( V, "121" ) ];
[ 10, infinity, 2 ]
gap> LongestWord( V );
Error, the group has no longest element of at most 255 letters
gap> V := CoxeterShellGroup( "A 12" );
<Coxeter group type A 12>
gap> [ NormalFormOfWord( V, "12.11.12" ), NormalFormOfWord( V, [ 12, 11, 12, 1 ] ), LeftDescents( V, [ 12, 11, 12 ] ), WordText( V, [ 12, 1 ] ) ];
[ [ 11, 12, 11 ], [ 1, 11, 12, 11 ], [ 11, 12 ], "12.1" ]
gap> V := CoxeterShellGroup( "B", 16 );
<Coxeter group type B 16>
gap> LongestWord( V );
Error, the group has no longest element of at most 255 letters
gap> w := NormalFormOfWord( V, Concatenation( List( [ 1 .. 15 ], i -> [ 1 .. 16 ] ) ) );;
gap> Length( w );
240
gap> ProductOfWords( V, w, InverseOfWord( V, w ) );
[  ]
gap> CoxeterShellClose( V );
gap> LengthOfWord( V, "16.15" );
2
gap> Perform( [ V, W ], CoxeterShellClose ); LengthOfWord( W, "12" );
2
gap> W!.sent := 15999990;; LengthOfWord( W, "121" );
3
gap> W!.sent < 1000;
true
gap> ForAll( [ "A 3", "B 4", "D 5", "E 6", "F 4", "G 2", "a 3", "matrix 3 3 4 6" ], function( name )
>     local V, M, r;
>     V := CoxeterShellGroup( name );
>     M := CoxeterShellMatrix( V );
>     r := ReflectionMatrices( V );
>     CoxeterShellClose( V );
>     return ForAll( [ 1 .. Length( M ) ], s -> ForAll( [ 1 .. Length( M ) ], t -> Order( r[s] * r[t] ) = M[s][t] ) );
>   end );
true
gap> LengthOfWord( W, "14" );
Error, error 16: a word has a letter that the group doesn't have: the letters \
of <Coxeter group type A 3> are 1 to 3 (the line was length 14)
gap> LengthOfWord( W, [ 14 ] );
Error, error 16: a word has a letter that the group doesn't have: the letters \
of <Coxeter group type A 3> are 1 to 3 (the line was 14)
gap> LengthOfWord( W, "1 2" );
Error, a word has letters and dots, and no spaces: 1 2
gap> LengthOfWord( W, [ 0 ] );
Error, a word is a list of positive integers, or a string: [ 0 ]
gap> LengthOfWord( W, [ 1, "a" ] );
Error, a word is a list of positive integers, or a string: [ 1, "a" ]
gap> LengthOfWord( W, ListWithIdenticalEntries( 256, 1 ) );
Error, error 17: a word has more than 255 letters (the line was length 1111111\
111111111111111111111111111111111111111111111111111111111111111111 ..)
gap> CoxeterShellGroup( "H", 3 );
Error, error 13: there is no such type: H 3 has a label other than 2, 3, 4, 6 \
and infinity, and such labels are not taken (the line was type H 3)
gap> CoxeterShellGroup( "A", 17 );
Error, error 13: there is no such type: groups have rank 1 to 16 (the line was\
 type A 17)
gap> CoxeterShellGroup( "A", -1 );
Error, error 12: an argument should be a number and is none, or it is out of r\
ange (the line was type A -1)
gap> CoxeterShellGroup( "A\t3" );
Error, error 19: the line has a byte that is no printing ASCII character and n\
o space (the line was A	3)
gap> CoxeterShellGroup( [] );
Error, error 12: an argument should be a number and is none, or it is out of r\
ange (the line was matrix 0)
gap> CoxeterShellGroup( [ [ 1, 5 ], [ 5, 1 ] ] );
Error, error 14: a label of the matrix is not 0, 2, 3, 4 or 6 (the line was ma\
trix 2 5)
gap> CoxeterShellGroup( [ [ 1, 3 ], [ 2, 1 ] ] );
Error, a Coxeter matrix is symmetric, and has 1 on its diagonal
gap> CoxeterShellGroup( [ [ 1, 3 ], [ 3 ] ] );
Error, a Coxeter matrix has as many columns as rows
gap> CoxeterShellGroup( [ [ 1, 1/2 ], [ 1/2, 1 ] ] );
Error, a label of a Coxeter matrix is 0, 2, 3, 4, 6 or infinity, not 1/2
gap> CoxeterShellGroup();
Error, usage: CoxeterShellGroup( "A", 3 ), ( "A3" ), ( "A2xB2" ), ( "matrix 3 \
3 2 4" ) or ( <Coxeter matrix> ), with a record of options behind it
gap> CoxeterShellGroup( "A", 3, rec( workers := 0 ) );
Error, the option workers is 1 to 16, and not 0
gap> CoxeterShellGroup( "A", 3, rec( colour := 1 ) );
Error, the options are workers, context, coef and roots, and program, a path; \
this is none: colour
gap> CoxeterShellGroup( "A", 3, rec( workers := 17 ) );
Error, the option workers is 1 to 16, and not 17
gap> CoxeterShellGroup( "A", 3, rec( coef := 2^63 ) );
Error, the option coef is 1 to 9223372036854775807, and not 922337203685477580\
8
gap> CoxeterShellGroup( "A", 3, rec( context := 1/2 ) );
Error, the option context is 1 to 1048576, and not 1/2
gap> CoxeterShellGroup( "A", 3, rec( program := 7 ) );
Error, the options are workers, context, coef and roots, and program, a path; \
this is none: program
gap> LengthOfWord( CoxeterShellGroup( "A", 3, rec( workers := 16, context := 1048576, coef := 2^63 - 1, roots := 4096 ) ), "12" );
2
gap> CoxeterShellGroup( "A", 3, rec( roots := 5 ) );
Error, error 21: the group has more small roots than the option `roots' allows\
 (the line was type A 3)
gap> CoxeterShellGroup( "A", 3, rec( program := "/no/such/program" ) );
Error, there is no program /no/such/program
gap> CoxeterShellGroup( "A", 3, rec( program := "/" ) );
Error, there is no program /
gap> CoxeterShellGroup( "A", 3, rec( program := "/bin/cat" ) );
Error, this is not the program coxeter, or its options are wrong: it says 
gap> CoxeterShellAsk( W, "coatoms 121" );
[ "2", "12", "21" ]
gap> CoxeterShellAsk( W, "type B 3" );
Error, the group of this object stays: make another object for another group
gap> CoxeterShellAsk( W, "quit" );
Error, quit is not answered at once: CoxeterShellClose ends the program, and q\
uestions are asked one by one
gap> CoxeterShellAsk( W, "jobs" );
Error, jobs is not answered at once: CoxeterShellClose ends the program, and q\
uestions are asked one by one
gap> CoxeterShellAsk( W, "length 1\n" );
Error, error 19: the line has a byte that is no printing ASCII character and n\
o space (the line was length 1
)
gap> CoxeterShellAsk( W, "foo" );
Error, error 10: the program has no such command (the line was foo)
gap> CoxeterShellAsk( W, ListWithIdenticalEntries( 4097, '1' ) );
Error, error 18: the line has more than 4,096 bytes (the line was 111111111111\
11111111111111111111111111111111111111111111111111111111111111111111 ..)
gap> CoxeterShellAsk( W, ListWithIdenticalEntries( 4096, '1' ) );
Error, error 10: the program has no such command (the line was 111111111111111\
11111111111111111111111111111111111111111111111111111111111111111 ..)
gap> CoxeterShellAsk( W, 1 );
Error, usage: CoxeterShellAsk( <W>, <line> ) with a group of this package and \
a string
gap> LengthOfWord( W, "12" );
2
gap> V := CoxeterShellGroup( "A", 3, rec( context := 23, workers := 2, coef := 100 ) );; BettiNumbersOfWord( V, LongestWord( V ) );
Error, error 31: the interval below the element, or the group, is infinite or \
has more members than the option `context' allows, or than 4,096 in a certific\
ate: there are more than 23 elements of 24 below 121321, and `context' allows \
no more (the line was betti 121321)
gap> Length( CoxeterShellAsk( V, "lcells" ) );
Error, error 31: the interval below the element, or the group, is infinite or \
has more members than the option `context' allows, or than 4,096 in a certific\
ate: the group has 24 elements, and `context' allows 23 (the line was lcells)
gap> BettiNumbersOfWord( V, "12" );
[ 1, 2, 1 ]
gap> groups := List( [ 1 .. 100 ], i -> CoxeterShellGroup( "A", 2 ) );;
gap> Length( CoxeterShellRunning ) = CoxeterShellMostRunning;
true
gap> Set( groups, V -> LengthOfWord( V, "121" ) );
[ 3 ]
gap> Perform( groups, CoxeterShellClose );
gap> CoxeterShellRunning;
[  ]
gap> [ LengthOfWord( W, "12" ), Length( CoxeterShellRunning ) ];
[ 2, 1 ]
gap> STOP_TEST( "words.tst" );
