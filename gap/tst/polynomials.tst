gap> START_TEST( "polynomials.tst" );
gap> W := CoxeterShellGroup( "A", 3 );;
gap> q := Indeterminate( Rationals, "q" );;
gap> KazhdanLusztigPolynomial( W, "2", "2132" ) = 1 + q;
true
gap> [ KazhdanLusztigPolynomial( W, "e", [ 1, 2, 3, 2, 1 ] ), KazhdanLusztigPolynomial( W, "12", "21" ) ];
[ q+1, 0 ]
gap> [ RPolynomial( W, "e", "121" ), RPolynomial( W, "12", "12" ), RPolynomial( W, "12", "21" ) ];
[ q^3-2*q^2+2*q-1, 1, 0 ]
gap> [ InverseKazhdanLusztigPolynomial( W, "2", "2132" ), InverseKazhdanLusztigPolynomial( W, "e", "2132" ) ];
[ q+1, 1 ]
gap> [ KazhdanLusztigMu( W, "2", "2132" ), KazhdanLusztigMu( W, "e", "2132" ) ];
[ 1, 0 ]
gap> KazhdanLusztigRow( W, "132" );
[ [ [  ], 1 ], [ [ 1 ], 1 ], [ [ 2 ], 1 ], [ [ 3 ], 1 ], [ [ 1, 2 ], 1 ], 
  [ [ 1, 3 ], 1 ], [ [ 3, 2 ], 1 ], [ [ 1, 3, 2 ], 1 ] ]
gap> ExtremalPairs( W, "2132" );
[ [ [ 2 ], q+1 ], [ [ 1, 2, 1 ], 1 ], [ [ 2, 3, 2 ], 1 ], 
  [ [ 2, 1, 3, 2 ], 1 ] ]
gap> Print( KazhdanLusztigCertificate( W, "12" ) );
cert 3 3 2 3
element 12
rows 4
e:1
1:1
2:1
12:1
end
gap> Value( KazhdanLusztigPolynomial( W, "2", "2132" ), 5 );
6
gap> List( [ "0", "1", "-1", "q", "-q", "2q^3", "-1+3q-3q^2+q^3", "1+q^12" ], it -> CoxeterShellPolynomial( it, "q" ) );
[ 0, 1, -1, q, -q, 2*q^3, q^3-3*q^2+3*q-1, q^12+1 ]
gap> CoxeterShellPolynomial( "-2v", "v" );
-2*v
gap> CoxeterShellPolynomial( "1+x", "q" );
Error, an unexpected answer: 1+x is no polynomial
gap> W := CoxeterShellGroup( "A", 4 );;
gap> Number( BruhatInterval( W, "e", LongestWord( W ) ), w -> IsOne( KazhdanLusztigPolynomial( W, "e", w ) ) );
88
gap> ForAll( BruhatInterval( W, "e", "1232143" ), x -> Sum( BruhatInterval( W, x, "1232143" ), z -> (-1) ^ ( Length( z ) - Length( x ) )
>   * KazhdanLusztigPolynomial( W, x, z ) * InverseKazhdanLusztigPolynomial( W, z, "1232143" ) ) = 0 * q
>   or x = NormalFormOfWord( W, "1232143" ) );
true
gap> KazhdanLusztigPolynomial( CoxeterShellGroup( "A", 3, rec( context := 10 ) ), "e", "121321" );
Error, error 31: the interval below the element, or the group, is infinite or \
has more members than the option `context' allows, or than 4,096 in a certific\
ate: there are more than 10 elements of 24 below 121321, and `context' allows \
no more (the line was pol e 121321)
gap> RPolynomial( CoxeterShellGroup( "D", 7 ), "e", LongestWord( CoxeterShellGroup( "D", 7 ) ) );
Error, error 34: R-polynomials are refused for elements whose lengths differ b\
y more than 39, and certificates of longer elements (the line was rpol e 12132\
1432154321654321754321654327543654756)
gap> KazhdanLusztigPolynomial( CoxeterShellGroup( "A", 4, rec( coef := 1 ) ), "e", "1234321" );
Error, error 32: a coefficient of a Kazhdan-Lusztig polynomial is beyond the o\
ption `coef', or a value of mu is too large (the line was pol e 1234321)
gap> KazhdanLusztigPolynomial( W, "e", "e", "e" );
Error, no method found! For debugging hints type ?Recovery from NoMethodFound
Error, no 1st choice method found for `KazhdanLusztigPolynomial' on 4 argument\
s
gap> STOP_TEST( "polynomials.tst" );
