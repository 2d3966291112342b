#############################################################################
##
##  W-graphs, cells and the modules of left cells
##

InstallMethod( WGraph, [ IsCoxeterShellGroup ], W -> WGraph( W, "left" ) );
InstallMethod( WGraph, [ IsCoxeterShellGroup, IsString ], function( W, side )
    local graph, items, places, words, at;
    if not side in [ "left", "right" ] then
        ErrorNoReturn( "the side is \"left\" or \"right\", not ", side );
    fi;
    items := List( CoxeterShellItems( W, Concatenation( side{[ 1 ]}, "wgraph" ), [] ), it -> SplitString( it, " " ) );
    graph := rec( group := W, side := side );
    graph.elements := List( items, words -> CoxeterShellElement( W, words[1] ) );
    graph.descents := List( items, words -> CoxeterShellElement( W, words[2] ) );
    places := NewDictionary( "", true );
    for at in [ 1 .. Length( items ) ] do
        AddDictionary( places, items[at][1], at );
    od;
    graph.neighbours := [];
    graph.mu := [];
    for words in items do
        words := List( words{[ 3 .. Length( words ) ]}, it -> SplitString( it, ":" ) );
        Add( graph.neighbours, List( words, pair -> LookupDictionary( places, pair[1] ) ) );
        Add( graph.mu, List( words, pair -> Int( pair[2] ) ) );
    od;
    return graph;
end );

InstallGlobalFunction( WGraphDigraph, function( graph )
    local digraph;
    if not IsPackageLoaded( "digraphs" ) then
        ErrorNoReturn( "WGraphDigraph needs the package Digraphs: LoadPackage( \"digraphs\" )" );
    fi;
    digraph := ValueGlobal( "Digraph" )( graph.neighbours );
    ValueGlobal( "SetDigraphVertexLabels" )( digraph, graph.elements );
    ValueGlobal( "SetDigraphEdgeLabels" )( digraph, graph.mu );
    return digraph;
end );

#F  CoxeterShellCells( <W>, <command> ) . . . . . . . . . . . . . lists of elements
BindGlobal( "CoxeterShellCells", function( W, command )
    return List( CoxeterShellItems( W, command, [] ), it -> List( SplitString( it, " " ), x -> CoxeterShellElement( W, x ) ) );
end );

InstallMethod( LeftCells, [ IsCoxeterShellGroup ], W -> CoxeterShellCells( W, "lcells" ) );
InstallMethod( RightCells, [ IsCoxeterShellGroup ], W -> CoxeterShellCells( W, "rcells" ) );
InstallMethod( TwoSidedCells, [ IsCoxeterShellGroup ], W -> CoxeterShellCells( W, "lrcells" ) );

# ---- modules of left cells

#F  CoxeterShellModule( <W>, <w> ) . . the elements of a left cell, and the entries of the t(s)
##
##  For each letter s there is a list of [ row, column, coefficient, degree ]: the entry is the coefficient times v to the degree.
BindGlobal( "CoxeterShellModule", function( W, w )
    local answer, texts, size, entries, s, x, words, term, parts, known;
    answer := CoxeterShellLine( W, "module", [ w ] );
    texts := SplitString( answer[2], " " );
    size := Length( texts );
    if Length( answer ) <> 2 + size * Length( W!.matrix ) then
        CoxeterShellClose( W );
        ErrorNoReturn( "an unexpected answer to module: it should have a line for each letter and each element" );
    fi;
    entries := [];
    for s in [ 1 .. Length( W!.matrix ) ] do
        entries[s] := [];
        for x in [ 1 .. size ] do
            words := SplitString( answer[ 2 + ( s - 1 ) * size + x ], " " );
            for term in words{[ 3 .. Length( words ) ]} do
                parts := SplitString( term, "=" );
                known := CoefficientsOfUnivariatePolynomial( CoxeterShellPolynomial( parts[2], "v" ) );
                Add( entries[s], [ Position( texts, parts[1] ), x, Last( known ), Length( known ) - 1 ] );
            od;
        od;
    od;
    return rec( elements := List( texts, it -> CoxeterShellElement( W, it ) ), entries := entries );
end );

#F  CoxeterShellMatrices( <module>, <at> ) . . . . . . . . . . the matrices of the t(s)
##
##  With the basis v x in the place of x for the elements x of odd length, the powers of v are those of q = v^2: an entry that leads from an
##  odd element to an even one is q times its coefficient, the other way it is the coefficient.
BindGlobal( "CoxeterShellMatrices", function( module, at )
    local entry, size;
    if at = "v" then
        at := Indeterminate( Rationals, "v" );
        entry := it -> it[3] * at ^ it[4];
    else
        if at = "q" then
            at := Indeterminate( Rationals, "q" );
        elif not IsRingElement( at ) then
            ErrorNoReturn( "the matrices are over \"q\" or \"v\", or at a value of q in a ring" );
        fi;
        entry := function( it )
            local degree;
            degree := it[4] / 2;
            if it[4] = 1 then
                degree := Length( module.elements[it[2]] ) mod 2;
            fi;
            return it[3] * at ^ degree;
        end;
    fi;
    size := [ 1 .. Length( module.elements ) ];
    return List( module.entries, function( entries )
        local found, it;
        found := List( size, y -> List( size, x -> Zero( at ) ) );
        for it in entries do
            found[it[1]][it[2]] := entry( it );
        od;
        return found;
    end );
end );

InstallMethod( CellModule, [ IsCoxeterShellGroup, IsList ], function( W, w )
    local module;
    module := CoxeterShellModule( W, w );
    return rec( group := W, elements := module.elements, matrices := CoxeterShellMatrices( module, "v" ) );
end );

InstallMethod( CellModuleMatrices, [ IsCoxeterShellGroup, IsList ], { W, w } -> CellModuleMatrices( W, w, "q" ) );
InstallMethod( CellModuleMatrices, [ IsCoxeterShellGroup, IsList, IsObject ],
    { W, w, at } -> CoxeterShellMatrices( CoxeterShellModule( W, w ), at ) );
