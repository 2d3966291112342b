#############################################################################
##
##  How a group is given: by its type, by a product of types, or by its Coxeter matrix
##
##  What is given is read into a record: `line` is the line that sets the group in the program, and `name` is what the group is called here.
##

# The least and the greatest number of each type that the program has by its name, and of the other affine types, which it is given by their
# matrices. C n is the Coxeter group B n. Small letters are the affine types.
BindGlobal( "CoxeterShellTypes", rec( A := [ 1, 16 ], B := [ 2, 16 ], C := [ 2, 16 ], D := [ 4, 16 ], E := [ 6, 8 ], F := [ 4, 4 ], G := [ 2, 2 ],
    a := [ 1, 15 ], b := [ 3, 15 ], c := [ 2, 15 ], d := [ 4, 15 ], e := [ 6, 8 ], f := [ 4, 4 ], g := [ 2, 2 ] ) );

# The nodes that the node 0 of these affine types is joined to. It is their last letter.
BindGlobal( "CoxeterShellJoined", rec( b := 2, c := 1, d := 2, e6 := 2, e7 := 1, e8 := 8, f := 1, g := 2 ) );

# The most generators of a group.
BindGlobal( "CoxeterShellMostRank", 16 );

#F  CoxeterShellFinite( <letter>, <n> ) . . . . . . the edges of a finite type, each as [ s, t, label ]
BindGlobal( "CoxeterShellFinite", function( letter, n )
    local edges;
    edges := List( [ 1 .. n - 1 ], s -> [ s, s + 1, 3 ] );
    if letter in [ "B", "C" ] then
        edges[n - 1][3] := 4;
    elif letter = "D" then
        edges[n - 1] := [ n - 2, n, 3 ];
    elif letter = "E" then
        edges[1] := [ 1, 3, 3 ];
        edges[2] := [ 2, 4, 3 ];
    elif letter = "F" then
        edges[2][3] := 4;
    elif letter = "G" then
        edges[1][3] := 6;
    fi;
    return edges;
end );

#F  CoxeterShellEdges( <letter>, <n> ) . . . . . . . . . . . . . . the same of any type
BindGlobal( "CoxeterShellEdges", function( letter, n )
    local edges, joined;
    if IsUpperAlphaChar( letter[1] ) then
        return CoxeterShellFinite( letter, n );
    elif letter = "a" and n = 1 then
        return [ [ 1, 2, infinity ] ];
    elif letter = "a" then
        return Concatenation( CoxeterShellFinite( "A", n + 1 ), [ [ 1, n + 1, 3 ] ] );
    elif letter = "c" then
        return Concatenation( CoxeterShellFinite( "B", n ), [ [ 1, n + 1, 4 ] ] );
    fi;
    joined := letter;
    if letter = "e" then
        joined := Concatenation( letter, String( n ) );
    fi;
    return Concatenation( CoxeterShellFinite( UppercaseString( letter ), n ), [ [ CoxeterShellJoined.(joined), n + 1, 3 ] ] );
end );

#F  CoxeterShellRows( <types> ) . . the Coxeter matrix of a product of types, each as [ letter, number ]
BindGlobal( "CoxeterShellRows", function( types )
    local sizes, rows, at, i, edge;
    sizes := List( types, function( type )
        if IsUpperAlphaChar( type[1][1] ) then
            return type[2];
        fi;
        return type[2] + 1;
    end );
    rows := List( [ 1 .. Sum( sizes ) ], s -> List( [ 1 .. Sum( sizes ) ], t -> 2 ) );
    for i in [ 1 .. Length( rows ) ] do
        rows[i][i] := 1;
    od;
    at := 0;
    for i in [ 1 .. Length( types ) ] do
        for edge in CoxeterShellEdges( types[i][1], types[i][2] ) do
            rows[at + edge[1]][at + edge[2]] := edge[3];
            rows[at + edge[2]][at + edge[1]] := edge[3];
        od;
        at := at + sizes[i];
    od;
    return rows;
end );

#F  CoxeterShellMatrixLine( <rows> ) . . . . . . . . . the line that sets a matrix
BindGlobal( "CoxeterShellMatrixLine", function( rows )
    local size, line, s, t, label;
    size := Length( rows );
    if not ForAll( rows, row -> IsList( row ) and Length( row ) = size ) then
        ErrorNoReturn( "a Coxeter matrix has as many columns as rows" );
    elif ForAny( [ 1 .. size ], s -> rows[s][s] <> 1 or ForAny( [ 1 .. size ], t -> rows[s][t] <> rows[t][s] ) ) then
        ErrorNoReturn( "a Coxeter matrix is symmetric, and has 1 on its diagonal" );
    fi;
    line := Concatenation( "matrix ", String( size ) );
    for s in [ 1 .. size ] do
        for t in [ s + 1 .. size ] do
            label := rows[s][t];
            if label = infinity then
                label := 0;
            elif not IsInt( label ) or label < 0 then
                ErrorNoReturn( "a label of a Coxeter matrix is 0, 2, 3, 4, 6 or infinity, not ", label );
            fi;
            Append( line, Concatenation( " ", String( label ) ) );
        od;
    od;
    return line;
end );

#F  CoxeterShellWhyNoType( <letter>, <number> ) . . . . . why there is no such named type
BindGlobal( "CoxeterShellWhyNoType", function( letter, number )
    local large, range, last;
    large := UppercaseString( letter );
    if large in [ "H", "I" ] then
        return Concatenation( large, " ", String( number ), " has a label other than 2, 3, 4, 6 and infinity, and such labels are not taken" );
    elif not letter in RecNames( CoxeterShellTypes ) then
        return Concatenation( "the letters are ", JoinStringsWithSeparator( Set( RecNames( CoxeterShellTypes ) ), ", " ) );
    fi;
    range := CoxeterShellTypes.(letter);
    last := range[2];
    if IsLowerAlphaChar( letter[1] ) then
        last := last + 1;
    fi;
    if number > range[2] and last = CoxeterShellMostRank then
        return Concatenation( "groups have rank 1 to ", String( CoxeterShellMostRank ) );
    elif range[1] = range[2] then
        return Concatenation( "the type of this letter is ", letter, " ", String( range[1] ) );
    fi;
    return Concatenation( "the types of this letter are ", letter, " ", String( range[1] ), " to ", letter, " ", String( range[2] ) );
end );

#F  CoxeterShellNamed( <letter>, <digits> ) . . . . . a named type as [ letter, number ]
BindGlobal( "CoxeterShellNamed", function( letter, digits )
    local line, number;
    line := Concatenation( "type ", letter, " ", digits );
    if digits = "" or Length( digits ) > 9 or not ForAll( digits, IsDigitChar ) then
        CoxeterShellRefuse( 12, line, "" );
    fi;
    number := Int( digits );
    if not letter in RecNames( CoxeterShellTypes ) or number < CoxeterShellTypes.(letter)[1] or number > CoxeterShellTypes.(letter)[2] then
        CoxeterShellRefuse( 13, line, CoxeterShellWhyNoType( letter, number ) );
    fi;
    return [ letter, number ];
end );

#F  CoxeterShellOfTypes( <types> ) . . . . . . . . . . . . . . the group of a type, or of a product
BindGlobal( "CoxeterShellOfTypes", function( types )
    local letter, number, rows;
    if Length( types ) > 1 then
        rows := CoxeterShellRows( types );
        if Length( rows ) > CoxeterShellMostRank then
            CoxeterShellRefuse( 12, CoxeterShellMatrixLine( rows ), "" );
        fi;
        return rec( name := JoinStringsWithSeparator( List( types, it -> Concatenation( it[1], String( it[2] ) ) ), "x" ),
            line := CoxeterShellMatrixLine( rows ) );
    fi;
    letter := types[1][1];
    number := Concatenation( " ", String( types[1][2] ) );
    if letter = "C" then
        return rec( name := Concatenation( "type C", number ), line := Concatenation( "type B", number ) );
    elif letter = "a" or IsUpperAlphaChar( letter[1] ) then
        return rec( name := Concatenation( "type ", letter, number ), line := Concatenation( "type ", letter, number ) );
    fi;
    return rec( name := Concatenation( "type ", letter, number ), line := CoxeterShellMatrixLine( CoxeterShellRows( types ) ) );
end );

#F  CoxeterShellJoinedWord( <word> ) . . . . . . the letters and the digits of a word such as "B3"
BindGlobal( "CoxeterShellJoinedWord", function( word )
    local letters;
    letters := Length( word ) - Length( Filtered( word, IsDigitChar ) );
    if letters in [ 1 .. Length( word ) - 1 ] and ForAll( word{[ 1 .. letters ]}, IsAlphaChar ) then
        return [ word{[ 1 .. letters ]}, word{[ letters + 1 .. Length( word ) ]} ];
    fi;
    return [ word ];
end );

#F  CoxeterShellFactor( <text> ) . . . . . . . . the words of a named type, as [ "B", "3" ]
BindGlobal( "CoxeterShellFactor", function( text )
    local words;
    words := SplitString( text, "", " " );
    if words <> [] and words[1] = "type" then
        Remove( words, 1 );
    fi;
    if Length( words ) = 1 then
        words := CoxeterShellJoinedWord( words[1] );
    fi;
    return words;
end );

#F  CoxeterShellIsFactor( <words> ) . . . . whether words are a letter and a number, as in a product
BindGlobal( "CoxeterShellIsFactor", words -> Length( words ) = 2 and Length( words[1] ) = 1 and IsAlphaChar( words[1][1] ) and
    ForAll( words[2], IsDigitChar ) );

#F  CoxeterShellOfText( <text> ) . . . . . . . . . . . . . . . the group of a text
##
##  It is a type, as "B3", "B 3" and "type B 3", a product of types, as "A2xB2", or a line such as "matrix 3 3 2 4".
BindGlobal( "CoxeterShellOfText", function( text )
    local words, factors, line;
    words := SplitString( text, "", " " );
    if words <> [] and words[1] = "matrix" then
        line := JoinStringsWithSeparator( words, " " );
        return rec( name := line, line := line );
    fi;
    factors := List( SplitString( text, "x" ), CoxeterShellFactor );
    if Length( factors ) <> Number( text, it -> it = 'x' ) + 1 or not ForAll( factors, CoxeterShellIsFactor ) then
        # It is no product, but one type, as "xA2" with letters that there are not.
        factors := [ CoxeterShellFactor( text ) ];
    fi;
    if Length( factors[1] ) <> 2 then
        ErrorNoReturn( "\"", text, "\" is no group: write \"A 3\", \"A2xB2\" or \"matrix 3 3 2 4\"" );
    fi;
    return CoxeterShellOfTypes( List( factors, it -> CoxeterShellNamed( it[1], it[2] ) ) );
end );

#F  CoxeterShellOfList( <type> ) . . . . . . letter and number of a type as Sage has it: [ "A", 3, 1 ] is a 3
BindGlobal( "CoxeterShellOfList", function( type )
    if Length( type ) = 2 and IsInt( type[2] ) then
        return type;
    elif Length( type ) = 3 and IsInt( type[2] ) and type[3] = 1 then
        return [ LowercaseString( type[1] ), type[2] ];
    fi;
    ErrorNoReturn( String( type ), " is no type: write [ \"A\", 3 ], or [ \"A\", 3, 1 ] for the affine group" );
end );

#F  CoxeterShellGiven( <arguments> ) . . . . . . . . . the group of what is given
BindGlobal( "CoxeterShellGiven", function( given )
    local text, line;
    if Length( given ) = 1 and IsList( given[1] ) and IsBound( given[1][1] ) and IsString( given[1][1] ) and given[1][1] <> "" then
        given := CoxeterShellOfList( given[1] );
    fi;
    if given <> [] and IsString( given[1] ) and given[1] <> "" then
        text := ReplacedString( given[1], "×", "x" );
        if ForAny( text, it -> it < ' ' or it > '~' ) then
            CoxeterShellRefuse( 19, text, "" );
        elif Length( given ) = 1 then
            return CoxeterShellOfText( text );
        elif Length( given ) = 2 and IsInt( given[2] ) then
            return CoxeterShellOfTypes( [ CoxeterShellNamed( text, String( given[2] ) ) ] );
        fi;
    elif Length( given ) = 1 and IsList( given[1] ) then
        line := CoxeterShellMatrixLine( given[1] );
        return rec( name := line, line := line );
    fi;
    ErrorNoReturn( "usage: CoxeterShellGroup( \"A\", 3 ), ( \"A3\" ), ( \"A2xB2\" ), ( \"matrix 3 3 2 4\" ) or ( <Coxeter matrix> ), ",
        "with a record of options behind it" );
end );

# ---- what the matrix tells of the group

#F  CoxeterShellCartanMatrix( <matrix> ) . . . a Cartan matrix with the labels of a Coxeter matrix
BindGlobal( "CoxeterShellCartanMatrix", function( matrix )
    local above, below;
    # Minus its entries above and below the diagonal, by the labels.
    above := m -> First( [ [ 2, 0 ], [ 3, 1 ], [ 4, 2 ], [ 6, 3 ], [ infinity, 2 ] ], it -> it[1] = m )[2];
    below := m -> First( [ [ 2, 0 ], [ 3, 1 ], [ 4, 1 ], [ 6, 1 ], [ infinity, 2 ] ], it -> it[1] = m )[2];
    return List( [ 1 .. Length( matrix ) ], s -> List( [ 1 .. Length( matrix ) ], function( t )
        if s = t then
            return 2;
        elif s < t then
            return - above( matrix[s][t] );
        fi;
        return - below( matrix[s][t] );
    end ) );
end );

#F  CoxeterShellIsFiniteMatrix( <matrix> ) . . . . . . . . . . whether the group of a matrix is finite
##
##  It is where the Cartan matrix is of finite type, which is where its leading minors are positive (Kac, "Infinite dimensional Lie algebras",
##  section 4.3: the matrix has no positive entries off its diagonal, so that all principal minors are positive then).
BindGlobal( "CoxeterShellIsFiniteMatrix", function( matrix )
    local cartan;
    cartan := CoxeterShellCartanMatrix( matrix );
    return ForAll( [ 1 .. Length( cartan ) ], n -> DeterminantMat( cartan{[ 1 .. n ]}{[ 1 .. n ]} ) > 0 );
end );
