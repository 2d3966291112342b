#############################################################################
##
##  PackageInfo.g for the package CoxeterShell
##
##  The package is a part of the repository of the program `coxeter` and is not distributed by itself. GAP wants addresses all the same:
##  those below are none that exists.
##
SetPackageInfo( rec(

PackageName := "CoxeterShell",
Subtitle := "Coxeter groups and Kazhdan-Lusztig polynomials by the program coxeter",
Version := "1.0",
Date := "29/11/2026",

Persons := [
  rec(
    LastName := "The maintainers of Zimmarupu",
    FirstNames := "-",
    IsAuthor := true,
    IsMaintainer := true,
    WWWHome := "https://zimmarupu.example",
  ),
],

Status := "dev",

PackageWWWHome := "https://zimmarupu.example/coxeter",
README_URL := Concatenation( ~.PackageWWWHome, "/gap/doc/CoxeterShell.md" ),
PackageInfoURL := Concatenation( ~.PackageWWWHome, "/gap/PackageInfo.g" ),
ArchiveURL := Concatenation( ~.PackageWWWHome, "/CoxeterShell-", ~.Version ),
ArchiveFormats := ".tar.gz",

AbstractHTML := "Normal forms, Bruhat order, Kazhdan-Lusztig polynomials, W-graphs, cells and their modules, by a proved program.",

# Its documentation is the page doc/CoxeterShell.md.
PackageDoc := [],

Dependencies := rec(
  GAP := ">=4.12",
  NeededOtherPackages := [],
  SuggestedOtherPackages := [ [ "digraphs", ">=1.0" ] ],
  ExternalConditions := [ "the program coxeter" ],
),

AvailabilityTest := ReturnTrue,

TestFile := "tst/testall.g",

Keywords := [ "Coxeter group", "Hecke algebra", "Kazhdan-Lusztig polynomial", "W-graph", "cell" ],

) );
