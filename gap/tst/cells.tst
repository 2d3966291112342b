gap> START_TEST( "cells.tst" );
gap> W := CoxeterShellGroup( "A", 2 );;
gap> LeftCells( W );
[ [ [  ] ], [ [ 1 ], [ 2, 1 ] ], [ [ 2 ], [ 1, 2 ] ], [ [ 1, 2, 1 ] ] ]
gap> RightCells( W );
[ [ [  ] ], [ [ 1 ], [ 1, 2 ] ], [ [ 2 ], [ 2, 1 ] ], [ [ 1, 2, 1 ] ] ]
gap> TwoSidedCells( W );
[ [ [  ] ], [ [ 1 ], [ 2 ], [ 1, 2 ], [ 2, 1 ] ], [ [ 1, 2, 1 ] ] ]
gap> graph := WGraph( W );;
gap> [ graph.side, graph.elements, graph.descents ];
[ "left", [ [  ], [ 1 ], [ 2 ], [ 1, 2 ], [ 2, 1 ], [ 1, 2, 1 ] ], 
  [ [  ], [ 1 ], [ 2 ], [ 1 ], [ 2 ], [ 1, 2 ] ] ]
gap> [ graph.neighbours, graph.mu ];
[ [ [ 2, 3 ], [ 1, 4, 5 ], [ 1, 4, 5 ], [ 2, 3, 6 ], [ 2, 3, 6 ], [ 4, 5 ] ], 
  [ [ 1, 1 ], [ 1, 1, 1 ], [ 1, 1, 1 ], [ 1, 1, 1 ], [ 1, 1, 1 ], [ 1, 1 ] ] ]
gap> WGraph( W, "right" ).descents;
[ [  ], [ 1 ], [ 2 ], [ 2 ], [ 1 ], [ 1, 2 ] ]
gap> WGraph( W, "both" );
Error, the side is "left" or "right", not both
gap> B := CoxeterShellGroup( "B", 3 );; graph := WGraph( B );; size := Length( graph.elements );;
gap> steps := List( [ 1 .. size ], x -> Filtered( graph.neighbours[x], y -> not IsSubset( graph.descents[y], graph.descents[x] ) ) );;
gap> relation := TransitiveClosureBinaryRelation( BinaryRelationOnPoints( List( [ 1 .. size ], x -> Union( [ x ], steps[x] ) ) ) );;
gap> reached := Successors( relation );;
gap> cells := Set( [ 1 .. size ], x -> Filtered( reached[x], y -> x in reached[y] ) );;
gap> Set( LeftCells( B ), cell -> List( cell, x -> Position( graph.elements, x ) ) ) = cells;
true
gap> List( [ LeftCells( B ), RightCells( B ), TwoSidedCells( B ) ], Length );
[ 14, 14, 6 ]
gap> M := CellModule( W, "1" );; M.elements;
[ [ 1 ], [ 2, 1 ] ]
gap> M.matrices;
[ [ [ -1, v ], [ 0, v^2 ] ], [ [ v^2, 0 ], [ v, -1 ] ] ]
gap> CellModuleMatrices( W, "1" );
[ [ [ -1, 1 ], [ 0, q ] ], [ [ q, 0 ], [ q, -1 ] ] ]
gap> CellModuleMatrices( W, "1", "v" ) = M.matrices;
true
gap> CellModuleMatrices( W, "1", 4 );
[ [ [ -1, 1 ], [ 0, 4 ] ], [ [ 4, 0 ], [ 4, -1 ] ] ]
gap> CellModuleMatrices( W, "1", Z(5) );
[ [ [ Z(5)^2, Z(5)^0 ], [ 0*Z(5), Z(5) ] ], 
  [ [ Z(5), 0*Z(5) ], [ Z(5), Z(5)^2 ] ] ]
gap> CellModuleMatrices( W, "1", "x" );
Error, the matrices are over "q" or "v", or at a value of q in a ring
gap> IsModule := function( W, matrices, q )
>     local one, M, s, t, left, right, i;
>     one := One( q ) * IdentityMat( Length( matrices[1] ) );
>     M := CoxeterShellMatrix( W );
>     for s in [ 1 .. Length( M ) ] do
>         if not IsZero( ( matrices[s] + one ) * ( matrices[s] - q * one ) ) then
>             return false;
>         fi;
>         for t in [ 1 .. s - 1 ] do
>             left := one; right := one;
>             for i in [ 1 .. M[s][t] ] do
>                 left := left * matrices[ [ s, t ][ i mod 2 + 1 ] ];
>                 right := right * matrices[ [ t, s ][ i mod 2 + 1 ] ];
>             od;
>             if left <> right then
>                 return false;
>             fi;
>         od;
>     od;
>     return true;
>   end;;
gap> q := Indeterminate( Rationals, "q" );; v := Indeterminate( Rationals, "v" );;
gap> ForAll( [ "A 3", "B 3", "D 4", "G 2" ], function( name )
>     local V;
>     V := CoxeterShellGroup( name );
>     return ForAll( LeftCells( V ), cell -> IsModule( V, CellModuleMatrices( V, cell[1] ), q )
>       and IsModule( V, CellModuleMatrices( V, cell[1], "v" ), v ^ 2 ) and IsModule( V, CellModuleMatrices( V, cell[1], Z(101) ), Z(101) )
>       and IsModule( V, CellModuleMatrices( V, cell[1], 3 ), 3 ) );
>   end );
true
gap> A := CoxeterShellGroup( "A", 4 );;
gap> Collected( List( LeftCells( A ), function( cell )
>     local module;
>     module := GModuleByMats( CellModuleMatrices( A, cell[1], Z(101) ), GF( 101 ) );
>     return [ Length( cell ), MTX.IsAbsolutelyIrreducible( module ) ];
>   end ) );
[ [ [ 1, true ], 2 ], [ [ 4, true ], 8 ], [ [ 5, true ], 10 ], 
  [ [ 6, true ], 6 ] ]
gap> V := CoxeterShellGroup( "B", 2 );;
gap> MTX.IsIrreducible( GModuleByMats( CellModuleMatrices( V, "1", Z(101) ), GF( 101 ) ) );
false
gap> LeftCells( CoxeterShellGroup( "a", 2 ) );
Error, error 31: the interval below the element, or the group, is infinite or \
has more members than the option `context' allows, or than 4,096 in a certific\
ate: the group is infinite, and W-graphs, cells and their modules are for fini\
te groups (the line was lcells)
gap> WGraph( CoxeterShellGroup( "A", 3, rec( context := 23 ) ) );
Error, error 31: the interval below the element, or the group, is infinite or \
has more members than the option `context' allows, or than 4,096 in a certific\
ate: the group has 24 elements, and `context' allows 23 (the line was lwgraph)
gap> CellModule( CoxeterShellGroup( "a", 1 ), "1" );
Error, error 31: the interval below the element, or the group, is infinite or \
has more members than the option `context' allows, or than 4,096 in a certific\
ate: the group is infinite, and W-graphs, cells and their modules are for fini\
te groups (the line was module 1)
gap> CellModule( W, "3" );
Error, error 16: a word has a letter that the group doesn't have: the letters \
of <Coxeter group type A 2> are 1 to 2 (the line was module 3)
gap> STOP_TEST( "cells.tst" );
