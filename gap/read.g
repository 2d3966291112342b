#############################################################################
##
##  read.g of the package CoxeterShell: the methods
##
ReadPackage( "CoxeterShell", "lib/program.gi" );
ReadPackage( "CoxeterShell", "lib/types.gi" );
ReadPackage( "CoxeterShell", "lib/group.gi" );
ReadPackage( "CoxeterShell", "lib/reasons.gi" );
ReadPackage( "CoxeterShell", "lib/cells.gi" );
ReadPackage( "CoxeterShell", "lib/hecke.gi" );
ReadPackage( "CoxeterShell", "lib/help.gi" );
