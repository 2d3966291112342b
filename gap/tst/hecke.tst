gap> START_TEST( "hecke.tst" );
gap> W := CoxeterShellGroup( "A", 3 );;
gap> CPrimeProduct( W, "2", "12" );
[ [ [ 2 ], 1 ], [ [ 1, 2, 1 ], 1 ] ]
gap> CPrimeProduct( W, "12", [ 2, 1 ] );
[ [ [ 1 ], v+v^-1 ], [ [ 1, 2, 1 ], v+v^-1 ] ]
gap> CPrimeProduct( W, "e", "132" );
[ [ [ 1, 3, 2 ], 1 ] ]
gap> List( [ "e", "2", "13", "12132", "121321" ], w -> AValueOfWord( W, w ) );
[ 0, 1, 2, 3, 6 ]
gap> DufloInvolutions( CoxeterShellGroup( "B", 2 ) );
[ [  ], [ 1 ], [ 2 ], [ 1, 2, 1, 2 ] ]
gap> ForAll( [ "A 3", "B 3", "G 2", "A1xB2" ], function( name )
>   local V, cells, involutions, q;
>   V := CoxeterShellGroup( name );
>   cells := LeftCells( V );
>   involutions := DufloInvolutions( V );
>   return Length( cells ) = Length( involutions ) and ForAll( [ 1 .. Length( cells ) ], function( at )
>     local values;
>     values := List( cells[at], x -> Length( x ) - 2 * DegreeOfLaurentPolynomial( KazhdanLusztigPolynomial( V, [], x ) ) );
>     return involutions[at] in cells[at] and values[ Position( cells[at], involutions[at] ) ] = Minimum( values )
>       and AValueOfWord( V, cells[at][ Length( cells[at] ) ] ) = Minimum( values ) and InverseOfWord( V, involutions[at] ) = involutions[at];
>   end );
> end );
true
gap> [ ParabolicKazhdanLusztigPolynomial( W, "2", "2132", [ 1, 3 ] ), ParabolicKazhdanLusztigPolynomial( W, "2", "2132", [] ) ];
[ q, q+1 ]
gap> ParabolicKazhdanLusztigPolynomial( W, "2", "2132", "13", "-1" );
1
gap> V := CoxeterShellGroup( "a2" );; List( [ "q", "-1" ], kind -> ParabolicKazhdanLusztigPolynomial( V, "3", "31213", "12", kind ) );
[ q, 2*q+1 ]
gap> AValueOfWord( V, "1" );
Error, error 31: the interval below the element, or the group, is infinite or \
has more members than the option `context' allows, or than 4,096 in a certific\
ate: the group is infinite, and W-graphs, cells and their modules are for fini\
te groups (the line was lcells)
gap> ParabolicKazhdanLusztigPolynomial( W, "21", "2132", "13" );
Error, 21 is not the shortest element of its coset
gap> ParabolicKazhdanLusztigPolynomial( W, "2", "2132", "14" );
Error, 14 is no set of letters of <Coxeter group type A 3>
gap> ParabolicKazhdanLusztigPolynomial( W, "2", "2132", [ 1, "a" ] );
Error, [ 1, "a" ] is no set of letters of <Coxeter group type A 3>
gap> ParabolicKazhdanLusztigPolynomial( W, "2", "2132", "13", "0" );
Error, the kind is "q" or "-1", not 0
gap> ParabolicKazhdanLusztigPolynomial( V, [], [], "123", "-1" );
Error, the letters generate an infinite group, which has no longest element
gap> CPrimeProduct( W, "4", "1" );
Error, error 16: a word has a letter that the group doesn't have: the letters \
of <Coxeter group type A 3> are 1 to 3 (the line was compute 4)
gap> CPrimeProduct( W, 1, 2 );
Error, no method found! For debugging hints type ?Recovery from NoMethodFound
Error, no 1st choice method found for `CPrimeProduct' on 3 arguments
gap> STOP_TEST( "hecke.tst" );
