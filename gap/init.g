#############################################################################
##
##  init.g of the package CoxeterShell: what it declares
##
ReadPackage( "CoxeterShell", "lib/program.gd" );
ReadPackage( "CoxeterShell", "lib/group.gd" );
