#############################################################################
##
##  testall.g: runs the tests of the package CoxeterShell, and ends GAP by status 0 where all pass
##
LoadPackage( "CoxeterShell" );
TestDirectory( DirectoriesPackageLibrary( "CoxeterShell", "tst" ), rec( exitGAP := true ) );
FORCE_QUIT_GAP( 1 );
