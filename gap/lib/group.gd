#############################################################################
##
##  Coxeter groups, whose questions the program answers
##
##  Words are lists of positive integers, as [ 2, 1, 3, 2 ], or strings as the program reads them, as "2132", "10.9.10" and "e". Elements
##  are answered as the lists of their ShortLex normal forms. Polynomials are univariate polynomials over the rationals in the indeterminates
##  named q and v, which Indeterminate( Rationals, "q" ) is.
##

#F  CoxeterShellGroup( <letter>, <n> [, <options>] )
#F  CoxeterShellGroup( <text> [, <options>] )
#F  CoxeterShellGroup( <matrix> [, <options>] ) . . . . . . . . . a Coxeter group
##
##  Small letters are the affine types. A text is a type, as "B3", "B 3" and "c2", a product of types, as "A2xB2", or a line such as
##  "matrix 3 3 2 4".
DeclareGlobalFunction( "CoxeterShellGroup" );

#O  CoxeterShellMatrix( <W> ) . . the Coxeter matrix, in which infinity is infinity
#O  CoxeterShellRank( <W> ) . . . . . . . . . . . . . . the number of generators
#O  CoxeterShellIsFinite( <W> ) . . . . . . . . . . whether the group is finite
#O  CoxeterShellSize( <W> ) . . . . . . the number of elements, or infinity
#O  ReflectionMatrices( <W> ) . . integer matrices of the generators, as they act on rows
DeclareOperation( "CoxeterShellMatrix", [ IsCoxeterShellGroup ] );
DeclareOperation( "CoxeterShellRank", [ IsCoxeterShellGroup ] );
DeclareOperation( "CoxeterShellIsFinite", [ IsCoxeterShellGroup ] );
DeclareOperation( "CoxeterShellSize", [ IsCoxeterShellGroup ] );
DeclareOperation( "ReflectionMatrices", [ IsCoxeterShellGroup ] );

#O  WordText( <W>, <w> ) . . . . . . . . . . . . a word as the program writes it
DeclareOperation( "WordText", [ IsCoxeterShellGroup, IsList ] );

#O  NormalFormOfWord( <W>, <w> ) . . . . . . . . . . . . . the ShortLex normal form
#O  LengthOfWord( <W>, <w> ) . . . . . . . . . . . . . . . the length of the element
#O  InverseOfWord( <W>, <w> ) . . . . . . . . . . . . . . . . . the inverse element
#O  ProductOfWords( <W>, <u>, <v> ) . . . . . . . . . . the product of two elements
#O  OrderOfWord( <W>, <w> ) . . . . . . . . . . the order of the element, or infinity
#O  LongestWord( <W> ) . . . . . . . . . . . . the longest element of a finite group
#O  LeftDescents( <W>, <w> ) . . . . . . . . . . . . the letters s with l(sw) < l(w)
#O  RightDescents( <W>, <w> ) . . . . . . . . . . .  the letters s with l(ws) < l(w)
DeclareOperation( "NormalFormOfWord", [ IsCoxeterShellGroup, IsList ] );
DeclareOperation( "LengthOfWord", [ IsCoxeterShellGroup, IsList ] );
DeclareOperation( "InverseOfWord", [ IsCoxeterShellGroup, IsList ] );
DeclareOperation( "ProductOfWords", [ IsCoxeterShellGroup, IsList, IsList ] );
DeclareOperation( "OrderOfWord", [ IsCoxeterShellGroup, IsList ] );
DeclareOperation( "LongestWord", [ IsCoxeterShellGroup ] );
DeclareOperation( "LeftDescents", [ IsCoxeterShellGroup, IsList ] );
DeclareOperation( "RightDescents", [ IsCoxeterShellGroup, IsList ] );

#O  IsBruhatLessOrEqual( <W>, <y>, <w> ) . . . . . . . . . . . . . whether y <= w
#O  BruhatInterval( <W>, <y>, <w> ) . . . . . . . . . . the x with y <= x <= w
#O  BruhatCoatoms( <W>, <w> ) . . . . . . . . . . . . . . the x that w covers
#O  BettiNumbersOfWord( <W>, <w> )  for each k the number of the x <= w of length k
#O  IntersectionBettiNumbersOfWord( <W>, <w> ) . . . . . of the Schubert variety of w
DeclareOperation( "IsBruhatLessOrEqual", [ IsCoxeterShellGroup, IsList, IsList ] );
DeclareOperation( "BruhatInterval", [ IsCoxeterShellGroup, IsList, IsList ] );
DeclareOperation( "BruhatCoatoms", [ IsCoxeterShellGroup, IsList ] );
DeclareOperation( "BettiNumbersOfWord", [ IsCoxeterShellGroup, IsList ] );
DeclareOperation( "IntersectionBettiNumbersOfWord", [ IsCoxeterShellGroup, IsList ] );

#O  RPolynomial( <W>, <y>, <w> )
#O  KazhdanLusztigPolynomial( <W>, <y>, <w> )
#O  InverseKazhdanLusztigPolynomial( <W>, <y>, <w> )
#O  KazhdanLusztigMu( <W>, <y>, <w> )
#O  KazhdanLusztigRow( <W>, <w> ) . . . the pairs [ x, P(x,w) ] of the x <= w
#O  ExtremalPairs( <W>, <w> ) . . . . . those whose x has all descents of w
#O  KazhdanLusztigCertificate( <W>, <w> ) . . the text that coxcheck judges
#O  ParabolicKazhdanLusztigPolynomial( <W>, <u>, <v>, <J> [, <kind>] ) . . Deodhar's
#O  CPrimeProduct( <W>, <x>, <y> ) . . . the pairs [ z, h(x,y,z) ] of C'(x) C'(y)
DeclareOperation( "RPolynomial", [ IsCoxeterShellGroup, IsList, IsList ] );
DeclareOperation( "KazhdanLusztigPolynomial", [ IsCoxeterShellGroup, IsList, IsList ] );
DeclareOperation( "InverseKazhdanLusztigPolynomial", [ IsCoxeterShellGroup, IsList, IsList ] );
DeclareOperation( "KazhdanLusztigMu", [ IsCoxeterShellGroup, IsList, IsList ] );
DeclareOperation( "KazhdanLusztigRow", [ IsCoxeterShellGroup, IsList ] );
DeclareOperation( "ExtremalPairs", [ IsCoxeterShellGroup, IsList ] );
DeclareOperation( "KazhdanLusztigCertificate", [ IsCoxeterShellGroup, IsList ] );
DeclareOperation( "ParabolicKazhdanLusztigPolynomial", [ IsCoxeterShellGroup, IsList, IsList, IsList ] );
DeclareOperation( "ParabolicKazhdanLusztigPolynomial", [ IsCoxeterShellGroup, IsList, IsList, IsList, IsString ] );
DeclareOperation( "CPrimeProduct", [ IsCoxeterShellGroup, IsList, IsList ] );

#O  WGraph( <W> [, <side>] ) . . . . the W-graph of a finite group, as a record
#F  WGraphDigraph( <graph> ) . . . . the same as a digraph of the package Digraphs
#O  LeftCells( <W> ) . . . . . . . . . . . . . . . . . . . .  lists of elements
#O  RightCells( <W> )
#O  TwoSidedCells( <W> )
#O  AValueOfWord( <W>, <w> ) . . . . . . . . . . . . . . . Lusztig's function a at w
#O  DufloInvolutions( <W> ) . . one for each left cell, in the order of LeftCells
#O  CellModule( <W>, <w> ) . . . . . the module of the left cell of w, as a record
#O  CellModuleMatrices( <W>, <w> [, <at>] ) . . . . . . . . . . . . its matrices
DeclareOperation( "WGraph", [ IsCoxeterShellGroup ] );
DeclareOperation( "WGraph", [ IsCoxeterShellGroup, IsString ] );
DeclareGlobalFunction( "WGraphDigraph" );
DeclareOperation( "LeftCells", [ IsCoxeterShellGroup ] );
DeclareOperation( "RightCells", [ IsCoxeterShellGroup ] );
DeclareOperation( "TwoSidedCells", [ IsCoxeterShellGroup ] );
DeclareOperation( "AValueOfWord", [ IsCoxeterShellGroup, IsList ] );
DeclareOperation( "DufloInvolutions", [ IsCoxeterShellGroup ] );
DeclareOperation( "CellModule", [ IsCoxeterShellGroup, IsList ] );
DeclareOperation( "CellModuleMatrices", [ IsCoxeterShellGroup, IsList ] );
DeclareOperation( "CellModuleMatrices", [ IsCoxeterShellGroup, IsList, IsObject ] );
