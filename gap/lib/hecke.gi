#############################################################################
##
##  What is made of several answers: products in the basis C', a-values, Duflo involutions, parabolic polynomials
##

# ---- products in the basis C'

#F  CoxeterShellCollected( <pairs> ) . . . . . . . . . . . a sum of multiples of elements
##
##  The pairs are of an element and a coefficient. Each element is there once then, in ShortLex order, and no coefficient is zero.
BindGlobal( "CoxeterShellCollected", function( pairs )
    local found, pair;
    found := [];
    for pair in Set( pairs, it -> [ Length( it[1] ), it[1] ] ) do
        Add( found, [ pair[2], 0 ] );
    od;
    for pair in pairs do
        pair := [ PositionSorted( found, [ pair[1] ], function( a, b )
            return [ Length( a[1] ), a[1] ] < [ Length( b[1] ), b[1] ];
        end ), pair[2] ];
        found[pair[1]][2] := found[pair[1]][2] + pair[2];
    od;
    return Filtered( found, it -> not IsZero( it[2] ) );
end );

#F  CoxeterShellByLetter( <W>, <s>, <w>, <rows> ) . . . C'(s) C'(w) as a list of pairs
##
##  It is v + v^-1 times C'(w) where s is a left descent of w; else it is C'(sw) and mu(z,w) C'(z) for the z < w that have s as a left descent.
##  <rows> is a dictionary of what is known of each w.
BindGlobal( "CoxeterShellByLetter", function( W, s, w, rows )
    local known, pair, up, coefficients, v;
    known := LookupDictionary( rows, w );
    if known = fail then
        known := rec( left := LeftDescents( W, w ), below := [] );
        for pair in KazhdanLusztigRow( W, w ) do
            up := Length( w ) - Length( pair[1] );
            coefficients := CoefficientsOfUnivariatePolynomial( pair[2] );
            if IsOddInt( up ) and Length( coefficients ) = ( up + 1 ) / 2 then
                Add( known.below, [ pair[1], Last( coefficients ), LeftDescents( W, pair[1] ) ] );
            fi;
        od;
        AddDictionary( rows, w, known );
    fi;
    if s in known.left then
        v := Indeterminate( Rationals, "v" );
        return [ [ w, v + v ^ -1 ] ];
    fi;
    return Concatenation( [ [ NormalFormOfWord( W, Concatenation( [ s ], w ) ), 1 ] ],
        List( Filtered( known.below, it -> s in it[3] ), it -> it{[ 1, 2 ]} ) );
end );

#F  CoxeterShellProducts( <W>, <x>, <products>, <rows> ) . . C'(x) C'(y) as a list of pairs
##
##  <products> is a dictionary of such products for one y by their x. C'(x) is C'(s) C'(sx) without the other terms of that.
DeclareGlobalFunction( "CoxeterShellProducts" );
InstallGlobalFunction( CoxeterShellProducts, function( W, x, products, rows )
    local found, shorter, terms, pair, term;
    found := LookupDictionary( products, x );
    if found = fail then
        shorter := x{[ 2 .. Length( x ) ]};
        terms := [];
        for pair in CoxeterShellProducts( W, shorter, products, rows ) do
            Append( terms, List( CoxeterShellByLetter( W, x[1], pair[1], rows ), it -> [ it[1], it[2] * pair[2] ] ) );
        od;
        for term in CoxeterShellByLetter( W, x[1], shorter, rows ) do
            if term[1] <> x then
                Append( terms, List( CoxeterShellProducts( W, term[1], products, rows ), it -> [ it[1], - term[2] * it[2] ] ) );
            fi;
        od;
        found := CoxeterShellCollected( terms );
        AddDictionary( products, x, found );
    fi;
    return found;
end );

InstallMethod( CPrimeProduct, [ IsCoxeterShellGroup, IsList, IsList ], function( W, x, y )
    local products, one;
    products := NewDictionary( [ 1 ], true );
    one := One( Indeterminate( Rationals, "v" ) );
    AddDictionary( products, [], [ [ NormalFormOfWord( W, y ), one ] ] );
    return List( CoxeterShellProducts( W, NormalFormOfWord( W, x ), products, NewDictionary( [ 1 ], true ) ), ShallowCopy );
end );

# ---- a-values and Duflo involutions

#F  CoxeterShellInvolutions( <W>, <elements> ) . . . those elements of a finite group whose square is the identity
##
##  The generators permute the roots. To ask the program for each inverse would take long.
BindGlobal( "CoxeterShellInvolutions", function( W, elements )
    local matrices, roots;
    if not IsBound( W!.permutations ) then
        matrices := ReflectionMatrices( W );
        roots := Concatenation( Orbits( Group( matrices ), IdentityMat( Length( matrices ) ) ) );
        W!.permutations := List( matrices, it -> Permutation( it, roots ) );
    fi;
    return Filtered( elements, x -> IsOne( Product( x, s -> W!.permutations[s], () ) ^ 2 ) );
end );

#F  CoxeterShellDuflo( <W>, <number> ) . . the a-value of a left cell, and its Duflo involution
##
##  l(x) - 2 deg P(e,x) is at least a(x), and equal to it at the Duflo involutions alone, of which each left cell has one (Lusztig, "Hecke
##  algebras with unequal parameters", chapters 14 and 15).
BindGlobal( "CoxeterShellDuflo", function( W, number )
    local involutions, values, least;
    if not IsBound( W!.duflo[number] ) then
        involutions := CoxeterShellInvolutions( W, W!.cells[number] );
        values := List( involutions, x -> Length( x ) - 2 * DegreeOfLaurentPolynomial( KazhdanLusztigPolynomial( W, [], x ) ) );
        least := MinimumList( values );
        if Number( values, it -> it = least ) <> 1 then
            ErrorNoReturn( "an unexpected answer to lcells: a left cell should have one Duflo involution" );
        fi;
        W!.duflo[number] := [ least, involutions[ Position( values, least ) ] ];
    fi;
    return W!.duflo[number];
end );

#F  CoxeterShellKeptCells( <W> ) . . . . . . . . . the left cells, which are asked for once
BindGlobal( "CoxeterShellKeptCells", function( W )
    if not IsBound( W!.cells ) then
        W!.duflo := [];
        W!.cells := LeftCells( W );
    fi;
    return W!.cells;
end );

InstallMethod( AValueOfWord, [ IsCoxeterShellGroup, IsList ], function( W, w )
    local x;
    x := NormalFormOfWord( W, w );
    return CoxeterShellDuflo( W, PositionProperty( CoxeterShellKeptCells( W ), cell -> x in cell ) )[1];
end );

InstallMethod( DufloInvolutions, [ IsCoxeterShellGroup ],
    W -> List( [ 1 .. Length( CoxeterShellKeptCells( W ) ) ], number -> ShallowCopy( CoxeterShellDuflo( W, number )[2] ) ) );

# ---- parabolic Kazhdan-Lusztig polynomials

#F  CoxeterShellLetters( <W>, <J> ) . . . . . . a set of letters, given as a word is
BindGlobal( "CoxeterShellLetters", function( W, J )
    local letters, digits;
    letters := J;
    if IsString( J ) and J <> "" then
        digits := WordText( W, J );
        if not ForAll( digits, it -> IsDigitChar( it ) or it = '.' ) and digits <> "e" then
            letters := fail;
        else
            letters := CoxeterShellElement( W, digits );
        fi;
    fi;
    if letters = fail or not IsSubset( [ 1 .. Length( W!.matrix ) ], letters ) then
        ErrorNoReturn( String( J ), " is no set of letters of ", ViewString( W ) );
    fi;
    return Set( letters );
end );

#F  CoxeterShellLongestOf( <W>, <letters> ) . the longest element of the group that letters generate
BindGlobal( "CoxeterShellLongestOf", function( W, letters )
    local element, left;
    if not CoxeterShellIsFiniteMatrix( W!.matrix{letters}{letters} ) then
        ErrorNoReturn( "the letters generate an infinite group, which has no longest element" );
    fi;
    element := [];
    left := letters;
    while left <> [] do
        element := NormalFormOfWord( W, Concatenation( element, [ left[1] ] ) );
        left := Difference( letters, RightDescents( W, element ) );
    od;
    return element;
end );

#F  CoxeterShellAlternating( <W>, <u>, <v>, <letters> ) . . the sum of (-1)^l(z) P(uz,v)
##
##  The words uz are reduced. Where uz is below v, so are the uy for the beginnings y of a reduced word of z.
BindGlobal( "CoxeterShellAlternating", function( W, u, v, letters )
    local total, level, sign, size;
    total := Zero( Indeterminate( Rationals, "q" ) );
    level := [ u ];
    sign := 1;
    size := Length( u );
    repeat
        level := Filtered( level, x -> IsBruhatLessOrEqual( W, x, v ) );
        total := total + sign * Sum( level, x -> KazhdanLusztigPolynomial( W, x, v ), Zero( total ) );
        size := size + 1;
        level := Concatenation( List( level, x -> List( letters, s -> NormalFormOfWord( W, Concatenation( x, [ s ] ) ) ) ) );
        level := Set( Filtered( level, x -> Length( x ) = size ) );
        sign := - sign;
    until level = [];
    return total;
end );

InstallMethod( ParabolicKazhdanLusztigPolynomial, [ IsCoxeterShellGroup, IsList, IsList, IsList ],
    { W, u, v, J } -> ParabolicKazhdanLusztigPolynomial( W, u, v, J, "q" ) );
InstallMethod( ParabolicKazhdanLusztigPolynomial, [ IsCoxeterShellGroup, IsList, IsList, IsList, IsString ], function( W, u, v, J, kind )
    local letters, word, longest;
    letters := CoxeterShellLetters( W, J );
    u := NormalFormOfWord( W, u );
    v := NormalFormOfWord( W, v );
    if not kind in [ "q", "-1" ] then
        ErrorNoReturn( "the kind is \"q\" or \"-1\", not ", kind );
    fi;
    for word in [ u, v ] do
        if Intersection( letters, RightDescents( W, word ) ) <> [] then
            ErrorNoReturn( WordText( W, word ), " is not the shortest element of its coset" );
        fi;
    od;
    if kind = "q" then
        return CoxeterShellAlternating( W, u, v, letters );
    fi;
    longest := CoxeterShellLongestOf( W, letters );
    return KazhdanLusztigPolynomial( W, ProductOfWords( W, u, longest ), ProductOfWords( W, v, longest ) );
end );
