#############################################################################
##
##  The page doc/CoxeterShell.md in GAP's help: ?CoxeterShellGroup, ?CoxeterShell: Polynomials
##
##  The file doc/manual.six names the handler below. It reads the page, whose sections are those of the book; each function in the first cell
##  of a row of a table is an entry.
##

#F  CoxeterShellWrapped( <text>, <indent> ) . . . . . . lines of at most 76 characters
BindGlobal( "CoxeterShellWrapped", function( text, indent )
    local lines, line, word;
    lines := [];
    line := "";
    for word in SplitString( text, "", " " ) do
        if line <> "" and Length( indent ) + Length( line ) + 1 + Length( word ) > 76 then
            Add( lines, Concatenation( indent, line ) );
            line := "";
        fi;
        if line <> "" then
            Add( line, ' ' );
        fi;
        line := Concatenation( line, word );
    od;
    if line <> "" then
        Add( lines, Concatenation( indent, line ) );
    fi;
    return lines;
end );

#F  CoxeterShellPlain( <line> ) . . . a line without the marks of code, and links as their texts
BindGlobal( "CoxeterShellPlain", function( line )
    local at, begin, close;
    line := ReplacedString( ReplacedString( line, "`", "" ), "**", "" );
    at := PositionSublist( line, "](" );
    while at <> fail do
        begin := Last( Positions( line{[ 1 .. at ]}, '[' ) );
        close := Position( line, ')', at );
        if begin = fail or close = fail then
            return line;
        fi;
        line := Concatenation( line{[ 1 .. begin - 1 ]}, line{[ begin + 1 .. at - 1 ]}, line{[ close + 1 .. Length( line ) ]} );
        at := PositionSublist( line, "](" );
    od;
    return line;
end );

#F  CoxeterShellNames( <cell> ) . . . . . . the functions that a cell of a table writes
##
##  They are the words before an opening parenthesis.
BindGlobal( "CoxeterShellNames", function( cell )
    local found, at, begin;
    found := [];
    for at in Positions( cell, '(' ) do
        begin := at;
        while begin > 1 and ( IsAlphaChar( cell[begin - 1] ) or IsDigitChar( cell[begin - 1] ) ) do
            begin := begin - 1;
        od;
        if begin < at then
            Add( found, cell{[ begin .. at - 1 ]} );
        fi;
    od;
    return found;
end );

#F  CoxeterShellSections( <lines> ) . . the sections of the page, each a record with title, lines and entries
##
##  An entry is a function and the number of the line where it is told.
BindGlobal( "CoxeterShellSections", function( lines )
    local sections, line, cells, code, name, now;
    sections := [];
    code := false;
    for line in lines do
        if StartsWith( line, "```" ) then
            code := not code;
        elif not code and StartsWith( line, "#" ) then
            now := rec( title := NormalizedWhitespace( ReplacedString( line, "#", "" ) ), lines := [], entries := [] );
            Add( sections, now );
        elif code then
            Add( now.lines, Concatenation( "    ", line ) );
        elif StartsWith( line, "| `" ) then
            cells := SplitString( line, "|" );
            Add( now.lines, "" );
            for name in Set( CoxeterShellNames( cells[2] ) ) do
                Add( now.entries, [ name, Length( now.lines ) ] );
            od;
            Append( now.lines, CoxeterShellWrapped( CoxeterShellPlain( cells[2] ), "  " ) );
            Append( now.lines, CoxeterShellWrapped( CoxeterShellPlain( cells[3] ), "      " ) );
        elif not StartsWith( line, "|" ) then
            Add( now.lines, CoxeterShellPlain( line ) );
        fi;
    od;
    return sections;
end );

#F  CoxeterShellReadSix( <stream> ) . . . . . . . . . what GAP's help knows of the book
##
##  `entries' has the sections first, each as [ title, normalized title, number of the section, line ].
BindGlobal( "CoxeterShellReadSix", function( stream )
    local page, sections, entries, i, entry;
    CloseStream( stream );
    page := StringFile( Filename( DirectoriesPackageLibrary( "CoxeterShell", "doc" ), "CoxeterShell.md" ) );
    sections := CoxeterShellSections( SplitString( page, "\n" ) );
    entries := List( [ 1 .. Length( sections ) ], i -> [ sections[i].title, SIMPLE_STRING( sections[i].title ), i, 1 ] );
    for i in [ 1 .. Length( sections ) ] do
        for entry in sections[i].entries do
            Add( entries, [ entry[1], SIMPLE_STRING( entry[1] ), i, entry[2] ] );
        od;
    od;
    return rec( bookname := "CoxeterShell", formats := [ "text" ], sections := sections, entries := entries );
end );

#F  CoxeterShellContents( <book> ) . . . . . . . . . . . . . the titles of the sections
BindGlobal( "CoxeterShellContents", book -> Concatenation( [ FILLED_LINE( "Table of Sections", "CoxeterShell", '_' ) ],
    List( HELP_BOOK_INFO( book ).sections, it -> it.title ), [ "" ] ) );

#F  CoxeterShellMatch( <step> ) . . . . . . the function that gives the section before or behind
BindGlobal( "CoxeterShellMatch", step -> function( book, number )
    local info, section;
    info := HELP_BOOK_INFO( book );
    section := info.entries[number][3] + step;
    if not section in [ 1 .. Length( info.sections ) ] then
        return [ info, fail ];
    fi;
    return [ info, section ];
end );

#F  CoxeterShellHelpData( <book>, <number>, <type> ) . . . what is shown of an entry
BindGlobal( "CoxeterShellHelpData", function( book, number, type )
    local info, entry, section;
    info := HELP_BOOK_INFO( book );
    entry := info.entries[number];
    section := info.sections[entry[3]];
    if type = "ref" then
        return HELP_BOOK_HANDLER.HelpDataRef( info, number );
    elif type = "secnr" then
        return [ [ entry[3], 0, 0 ], String( entry[3] ) ];
    elif type <> "text" then
        return fail;
    fi;
    return rec( lines := Concatenation( [ FILLED_LINE( section.title, "CoxeterShell", '_' ), "" ], section.lines ), formatted := true,
        start := entry[4] );
end );

HELP_BOOK_HANDLER.CoxeterShell := rec(
    ReadSix := CoxeterShellReadSix,
    ShowChapters := CoxeterShellContents,
    ShowSections := CoxeterShellContents,
    SearchMatches := HELP_BOOK_HANDLER.default.SearchMatches,
    # Where all matches are in one section, it is shown at once.
    SubsectionNumber := { book, number } -> HELP_BOOK_INFO( book ).entries[number][3],
    MatchPrevChap := CoxeterShellMatch( -1 ),
    MatchNextChap := CoxeterShellMatch( 1 ),
    MatchPrev := CoxeterShellMatch( -1 ),
    MatchNext := CoxeterShellMatch( 1 ),
    HelpData := CoxeterShellHelpData,
);

HELP_ADD_BOOK( "CoxeterShell", "Coxeter groups by the program coxeter", DirectoriesPackageLibrary( "CoxeterShell", "doc" )[1] );
