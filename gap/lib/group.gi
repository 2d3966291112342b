#############################################################################
##
##  Coxeter groups: words, orders and polynomials
##

# ---- groups

# The options of the program, and the greatest value of each.
BindGlobal( "CoxeterShellOptions", rec( workers := 16, context := 1048576, coef := 2^63 - 1, roots := 4096 ) );

#F  CoxeterShellArguments( <options> ) . . . . . . . . . . . options of the program
BindGlobal( "CoxeterShellArguments", function( options )
    local name, found;
    found := [];
    for name in RecNames( options ) do
        if IsBound( CoxeterShellOptions.(name) ) then
            if not IsPosInt( options.(name) ) or options.(name) > CoxeterShellOptions.(name) then
                ErrorNoReturn( Concatenation( "the option ", name, " is 1 to ", String( CoxeterShellOptions.(name) ), ", and not ",
                    String( options.(name) ) ) );
            fi;
            Add( found, Concatenation( "--", name, "=", String( options.(name) ) ) );
        elif name <> "program" or not IsString( options.program ) then
            ErrorNoReturn( Concatenation( "the options are workers, context, coef and roots, and program, a path; this is none: ", name ) );
        fi;
    od;
    return found;
end );

InstallGlobalFunction( CoxeterShellGroup, function( arg )
    local options, given, W, labels, s, t, at;
    options := rec();
    arg := ShallowCopy( arg );
    if arg <> [] and IsRecord( arg[ Length( arg ) ] ) then
        options := Remove( arg );
    fi;
    given := CoxeterShellGiven( arg );
    W := Objectify( CoxeterShellType, rec( name := given.name, group := given.line, matrix := fail, stream := fail, sure := false, sent := 0,
        program := fail ) );
    W!.arguments := CoxeterShellArguments( options );
    W!.context := CoxeterShellOptions.context;
    if IsBound( options.context ) then
        W!.context := options.context;
    fi;
    if IsBound( options.program ) then
        W!.program := options.program;
    fi;
    # The first line of a certificate has the rank and the labels.
    CoxeterShellStart( W );
    labels := List( SplitString( ReplacedString( CoxeterShellAsk( W, "cert e" )[1], "cert ", "" ), " " ), Int );
    W!.matrix := IdentityMat( labels[1] );
    at := 1;
    for s in [ 1 .. labels[1] ] do
        for t in [ s + 1 .. labels[1] ] do
            at := at + 1;
            W!.matrix[s][t] := labels[at];
            if labels[at] = 0 then
                W!.matrix[s][t] := infinity;
            fi;
            W!.matrix[t][s] := W!.matrix[s][t];
        od;
    od;
    return W;
end );

InstallMethod( CoxeterShellMatrix, [ IsCoxeterShellGroup ], W -> List( W!.matrix, ShallowCopy ) );
InstallMethod( CoxeterShellRank, [ IsCoxeterShellGroup ], W -> Length( W!.matrix ) );

InstallMethod( CoxeterShellIsFinite, [ IsCoxeterShellGroup ], W -> CoxeterShellIsFiniteMatrix( W!.matrix ) );
InstallMethod( CoxeterShellSize, [ IsCoxeterShellGroup ], function( W )
    if CoxeterShellIsFinite( W ) then
        return Size( Group( ReflectionMatrices( W ) ) );
    fi;
    return infinity;
end );

InstallMethod( \=, [ IsCoxeterShellGroup, IsCoxeterShellGroup ], { V, W } -> V!.matrix = W!.matrix );

InstallMethod( ViewString, [ IsCoxeterShellGroup ], W -> Concatenation( "<Coxeter group ", W!.name, ">" ) );
InstallMethod( PrintObj, [ IsCoxeterShellGroup ], function( W )
    Print( "CoxeterShellGroup( \"", W!.name, "\" )" );
end );
InstallMethod( ViewObj, [ IsCoxeterShellGroup ], function( W )
    Print( ViewString( W ) );
end );

InstallMethod( ReflectionMatrices, [ IsCoxeterShellGroup ], function( W )
    local cartan, letters;
    cartan := CoxeterShellCartanMatrix( W!.matrix );
    letters := [ 1 .. Length( cartan ) ];
    return List( letters, function( s )
        local image, t;
        image := IdentityMat( Length( cartan ) );
        for t in letters do
            image[t][s] := image[t][s] - cartan[s][t];
        od;
        return image;
    end );
end );

# ---- words

InstallMethod( WordText, [ IsCoxeterShellGroup, IsList ], function( W, w )
    local dot;
    if IsString( w ) and w <> "" then
        if ForAny( w, it -> it <= ' ' or it > '~' ) then
            ErrorNoReturn( "a word has letters and dots, and no spaces: ", w );
        fi;
        return w;
    elif not ForAll( w, IsPosInt ) then
        ErrorNoReturn( "a word is a list of positive integers, or a string: ", w );
    elif w = [] then
        return "e";
    fi;
    dot := "";
    if Length( W!.matrix ) > 9 then
        dot := ".";
    elif ForAny( w, it -> it > 9 ) then
        # Two digits would be two letters.
        CoxeterShellRefuse( 16, JoinStringsWithSeparator( w, "." ), CoxeterShellReason( W, 16, "" ) );
    fi;
    return JoinStringsWithSeparator( List( w, String ), dot );
end );

#F  CoxeterShellElement( <W>, <text> ) . . . . . . . . . . . . . . . the word of a text
BindGlobal( "CoxeterShellElement", function( W, text )
    if text = "e" or text = "-" then
        return [];
    elif Length( W!.matrix ) > 9 then
        return List( SplitString( text, "." ), Int );
    fi;
    return List( text, it -> IntChar( it ) - 48 );
end );

#F  CoxeterShellLine( <W>, <command>, <words> ) . . . . . . . the answer to a command
BindGlobal( "CoxeterShellLine", function( W, command, words )
    return CoxeterShellAsk( W, JoinStringsWithSeparator( Concatenation( [ command ], List( words, w -> WordText( W, w ) ) ), " " ) );
end );

#F  CoxeterShellItems( <W>, <command>, <words> ) . . . . . . . . . the items of a list
BindGlobal( "CoxeterShellItems", function( W, command, words )
    local answer;
    answer := CoxeterShellLine( W, command, words );
    if answer = [] or Int( answer[1] ) <> Length( answer ) - 1 then
        CoxeterShellClose( W );
        ErrorNoReturn( "an unexpected answer to ", command, ": it should be a list of items, with their number before it" );
    fi;
    return answer{[ 2 .. Length( answer ) ]};
end );

InstallMethod( NormalFormOfWord, [ IsCoxeterShellGroup, IsList ],
    { W, w } -> CoxeterShellElement( W, CoxeterShellLine( W, "compute", [ w ] )[1] ) );
InstallMethod( LengthOfWord, [ IsCoxeterShellGroup, IsList ], { W, w } -> Int( CoxeterShellLine( W, "length", [ w ] )[1] ) );
InstallMethod( InverseOfWord, [ IsCoxeterShellGroup, IsList ],
    { W, w } -> CoxeterShellElement( W, CoxeterShellLine( W, "inverse", [ w ] )[1] ) );

InstallMethod( ProductOfWords, [ IsCoxeterShellGroup, IsList, IsList ], function( W, u, v )
    local element, rest, some;
    element := NormalFormOfWord( W, u );
    rest := NormalFormOfWord( W, v );
    while rest <> [] do
        some := Minimum( Length( rest ), Maximum( CoxeterShellMostOfWord - Length( element ), 1 ) );
        element := NormalFormOfWord( W, Concatenation( element, rest{[ 1 .. some ]} ) );
        rest := rest{[ some + 1 .. Length( rest ) ]};
    od;
    return element;
end );

InstallMethod( OrderOfWord, [ IsCoxeterShellGroup, IsList ], function( W, w )
    local matrices;
    matrices := ReflectionMatrices( W );
    return Order( Product( NormalFormOfWord( W, w ), s -> matrices[s], IdentityMat( Length( matrices ) ) ) );
end );

#F  CoxeterShellDescents( <W>, <w> ) . . . . . . . . . . . the left and the right descents
BindGlobal( "CoxeterShellDescents", function( W, w )
    local words;
    words := SplitString( CoxeterShellLine( W, "descent", [ w ] )[1], " " );
    return List( [ words[2], words[4] ], it -> CoxeterShellElement( W, it ) );
end );

InstallMethod( LeftDescents, [ IsCoxeterShellGroup, IsList ], { W, w } -> CoxeterShellDescents( W, w )[1] );
InstallMethod( RightDescents, [ IsCoxeterShellGroup, IsList ], { W, w } -> CoxeterShellDescents( W, w )[2] );

InstallMethod( LongestWord, [ IsCoxeterShellGroup ], function( W )
    local element, letters, left;
    letters := [ 1 .. Length( W!.matrix ) ];
    element := [];
    repeat
        left := Difference( letters, RightDescents( W, element ) );
        if left = [] then
            return element;
        fi;
        element := NormalFormOfWord( W, Concatenation( element, [ left[1] ] ) );
    until Length( element ) = CoxeterShellMostOfWord;
    if RightDescents( W, element ) = letters then
        return element;
    fi;
    ErrorNoReturn( "the group has no longest element of at most ", CoxeterShellMostOfWord, " letters" );
end );

# ---- Bruhat order

InstallMethod( IsBruhatLessOrEqual, [ IsCoxeterShellGroup, IsList, IsList ],
    { W, y, w } -> CoxeterShellLine( W, "inorder", [ y, w ] ) = [ "true" ] );
InstallMethod( BruhatInterval, [ IsCoxeterShellGroup, IsList, IsList ],
    { W, y, w } -> List( CoxeterShellItems( W, "interval", [ y, w ] ), it -> CoxeterShellElement( W, it ) ) );
InstallMethod( BruhatCoatoms, [ IsCoxeterShellGroup, IsList ],
    { W, w } -> List( CoxeterShellItems( W, "coatoms", [ w ] ), it -> CoxeterShellElement( W, it ) ) );
InstallMethod( BettiNumbersOfWord, [ IsCoxeterShellGroup, IsList ],
    { W, w } -> List( SplitString( CoxeterShellLine( W, "betti", [ w ] )[1], " " ), Int ) );
InstallMethod( IntersectionBettiNumbersOfWord, [ IsCoxeterShellGroup, IsList ],
    { W, w } -> List( SplitString( CoxeterShellLine( W, "ihbetti", [ w ] )[1], " " ), Int ) );

# ---- polynomials

#F  CoxeterShellPolynomial( <text>, <name> ) . . . the polynomial of a text of the program
##
##  Its terms rise by degree, and have no zeros and no signs between a number and the indeterminate, as -1+2q+q^2.
BindGlobal( "CoxeterShellPolynomial", function( text, name )
    local coefficients, at, sign, begin, number, degree;
    coefficients := [];
    at := 1;
    while at <= Length( text ) and text <> "0" do
        sign := 1;
        if text[at] in "+-" then
            if text[at] = '-' then
                sign := -1;
            fi;
            at := at + 1;
        fi;
        begin := at;
        while at <= Length( text ) and IsDigitChar( text[at] ) do
            at := at + 1;
        od;
        number := 1;
        if at > begin then
            number := Int( text{[ begin .. at - 1 ]} );
        fi;
        degree := 0;
        if at <= Length( text ) and text[at] = name[1] then
            degree := 1;
            at := at + 1;
            if at <= Length( text ) and text[at] = '^' then
                begin := at + 1;
                at := begin;
                while at <= Length( text ) and IsDigitChar( text[at] ) do
                    at := at + 1;
                od;
                degree := Int( text{[ begin .. at - 1 ]} );
            fi;
        elif at = begin then
            ErrorNoReturn( "an unexpected answer: ", text, " is no polynomial" );
        fi;
        Append( coefficients, ListWithIdenticalEntries( degree - Length( coefficients ), 0 ) );
        coefficients[degree + 1] := sign * number;
    od;
    if coefficients = [] then
        return Zero( Indeterminate( Rationals, name ) );
    fi;
    return UnivariatePolynomial( Rationals, coefficients, Indeterminate( Rationals, name ) );
end );

InstallMethod( RPolynomial, [ IsCoxeterShellGroup, IsList, IsList ],
    { W, y, w } -> CoxeterShellPolynomial( CoxeterShellLine( W, "rpol", [ y, w ] )[1], "q" ) );
InstallMethod( KazhdanLusztigPolynomial, [ IsCoxeterShellGroup, IsList, IsList ],
    { W, y, w } -> CoxeterShellPolynomial( CoxeterShellLine( W, "pol", [ y, w ] )[1], "q" ) );
InstallMethod( InverseKazhdanLusztigPolynomial, [ IsCoxeterShellGroup, IsList, IsList ],
    { W, y, w } -> CoxeterShellPolynomial( CoxeterShellLine( W, "invpol", [ y, w ] )[1], "q" ) );
InstallMethod( KazhdanLusztigMu, [ IsCoxeterShellGroup, IsList, IsList ], { W, y, w } -> Int( CoxeterShellLine( W, "mu", [ y, w ] )[1] ) );

#F  CoxeterShellPairs( <W>, <command>, <w> ) . . . . pairs of elements and polynomials
BindGlobal( "CoxeterShellPairs", function( W, command, w )
    local known;
    # Many polynomials of a row are the same.
    known := NewDictionary( "", true );
    return List( CoxeterShellItems( W, command, [ w ] ), function( item )
        local parts;
        parts := SplitString( item, ":" );
        if not KnowsDictionary( known, parts[2] ) then
            AddDictionary( known, parts[2], CoxeterShellPolynomial( parts[2], "q" ) );
        fi;
        return [ CoxeterShellElement( W, parts[1] ), LookupDictionary( known, parts[2] ) ];
    end );
end );

InstallMethod( KazhdanLusztigRow, [ IsCoxeterShellGroup, IsList ], { W, w } -> CoxeterShellPairs( W, "klbasis", w ) );
InstallMethod( ExtremalPairs, [ IsCoxeterShellGroup, IsList ], { W, w } -> CoxeterShellPairs( W, "extremals", w ) );
InstallMethod( KazhdanLusztigCertificate, [ IsCoxeterShellGroup, IsList ],
    { W, w } -> Concatenation( List( CoxeterShellLine( W, "cert", [ w ] ), line -> Concatenation( line, "\n" ) ) ) );
