gap> START_TEST( "types.tst" );
gap> List( [ "B3", "C 3", "type C 3", "c2", "A2xB2", "A2 x c2", "type a 3", "matrix 2 0" ], it -> ViewString( CoxeterShellGroup( it ) ) );
[ "<Coxeter group type B 3>", "<Coxeter group type C 3>", 
  "<Coxeter group type C 3>", "<Coxeter group type c 2>", 
  "<Coxeter group A2xB2>", "<Coxeter group A2xc2>", 
  "<Coxeter group type a 3>", "<Coxeter group matrix 2 0>" ]
gap> CoxeterShellGroup( "C", 3 ) = CoxeterShellGroup( "B3" ) and CoxeterShellGroup( [ "A", 3, 1 ] ) = CoxeterShellGroup( "a3" );
true
gap> CoxeterShellGroup( [ "C", 2 ] ) = CoxeterShellGroup( "type B 2" ) and CoxeterShellGroup( "A2×B2" ) = CoxeterShellGroup( "A2xB2" );
true
gap> List( [ "c2", "b3", "g2", "A1xa1" ], it -> CoxeterShellMatrix( CoxeterShellGroup( it ) ) );
[ [ [ 1, 4, 4 ], [ 4, 1, 2 ], [ 4, 2, 1 ] ], 
  [ [ 1, 3, 2, 2 ], [ 3, 1, 4, 3 ], [ 2, 4, 1, 2 ], [ 2, 3, 2, 1 ] ], 
  [ [ 1, 6, 2 ], [ 6, 1, 3 ], [ 2, 3, 1 ] ], 
  [ [ 1, 2, 2 ], [ 2, 1, infinity ], [ 2, infinity, 1 ] ] ]
gap> List( [ "A3", "A2xG2", "E8", "D16", "c2", "A1xa1", "matrix 3 4 4 4" ], it -> CoxeterShellSize( CoxeterShellGroup( it ) ) );
[ 24, 72, 696729600, 685597979049984000, infinity, infinity, infinity ]
gap> List( [ "A3", "a3", "matrix 3 3 2 6" ], it -> CoxeterShellIsFinite( CoxeterShellGroup( it ) ) );
[ true, false, false ]
gap> V := CoxeterShellGroup( "c", 2 );; Print( V, "\n" );
CoxeterShellGroup( "type c 2" )
gap> [ LengthOfWord( V, "131313" ), V = CoxeterShellGroup( "type c 2" ) ];
[ 2, true ]
gap> CoxeterShellGroup( "H3" );
Error, error 13: there is no such type: H 3 has a label other than 2, 3, 4, 6 \
and infinity, and such labels are not taken (the line was type H 3)
gap> CoxeterShellGroup( "h3" );
Error, error 13: there is no such type: H 3 has a label other than 2, 3, 4, 6 \
and infinity, and such labels are not taken (the line was type h 3)
gap> CoxeterShellGroup( "A2xI5" );
Error, error 13: there is no such type: I 5 has a label other than 2, 3, 4, 6 \
and infinity, and such labels are not taken (the line was type I 5)
gap> CoxeterShellGroup( "A", 17 );
Error, error 13: there is no such type: groups have rank 1 to 16 (the line was\
 type A 17)
gap> CoxeterShellGroup( "b16" );
Error, error 13: there is no such type: groups have rank 1 to 16 (the line was\
 type b 16)
gap> CoxeterShellGroup( "B1" );
Error, error 13: there is no such type: the types of this letter are B 2 to B \
16 (the line was type B 1)
gap> CoxeterShellGroup( "F5" );
Error, error 13: there is no such type: the type of this letter is F 4 (the li\
ne was type F 5)
gap> CoxeterShellGroup( "Z3" );
Error, error 13: there is no such type: the letters are A, B, C, D, E, F, G, a\
, b, c, d, e, f, g (the line was type Z 3)
gap> CoxeterShellGroup( "A9xA9" );
Error, error 12: an argument should be a number and is none, or it is out of r\
ange (the line was matrix 18 3 2 2 2 2 2 2 2 2 2 2 2 2 2 2 2 2 3 2 2 2 2 2 2 2\
 2 2 2 2 2 2 2 2 3 2  ..)
gap> CoxeterShellGroup( "A 3 4" );
Error, "A 3 4" is no group: write "A 3", "A2xB2" or "matrix 3 3 2 4"
gap> CoxeterShellGroup( "3A" );
Error, "3A" is no group: write "A 3", "A2xB2" or "matrix 3 3 2 4"
gap> CoxeterShellGroup( "A2x" );
Error, "A2x" is no group: write "A 3", "A2xB2" or "matrix 3 3 2 4"
gap> CoxeterShellGroup( "xA2" );
Error, error 13: there is no such type: the letters are A, B, C, D, E, F, G, a\
, b, c, d, e, f, g (the line was type xA 2)
gap> CoxeterShellGroup( [ "A", 3, 2 ] );
Error, [ "A", 3, 2 ] is no type: write [ "A", 3 ], or [ "A", 3, 1 ] for the af\
fine group
gap> CoxeterShellGroup( "A", 1234567890 );
Error, error 12: an argument should be a number and is none, or it is out of r\
ange (the line was type A 1234567890)
gap> STOP_TEST( "types.tst" );
