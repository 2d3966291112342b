#############################################################################
##
##  The program `coxeter`, as a process that answers lines
##

InstallValue( CoxeterShellRefusals, [] );
CoxeterShellRefusals[10] := "the program has no such command";
CoxeterShellRefusals[11] := "the command takes another number of arguments";
CoxeterShellRefusals[12] := "an argument should be a number and is none, or it is out of range";
CoxeterShellRefusals[13] := "there is no such type";
CoxeterShellRefusals[14] := "a label of the matrix is not 0, 2, 3, 4 or 6";
CoxeterShellRefusals[15] := "no group is set";
CoxeterShellRefusals[16] := "a word has a letter that the group doesn't have";
CoxeterShellRefusals[17] := "a word has more than 255 letters";
CoxeterShellRefusals[18] := "the line has more than 4,096 bytes";
CoxeterShellRefusals[19] := "the line has a byte that is no printing ASCII character and no space";
CoxeterShellRefusals[21] := "the group has more small roots than the option `roots' allows";
CoxeterShellRefusals[31] := Concatenation( "the interval below the element, or the group, is infinite or has more members than the ",
    "option `context' allows, or than 4,096 in a certificate" );
CoxeterShellRefusals[32] := Concatenation( "a coefficient of a Kazhdan-Lusztig polynomial is beyond the option `coef', ",
    "or a value of mu is too large" );
CoxeterShellRefusals[34] := Concatenation( "R-polynomials are refused for elements whose lengths differ by more than 39, ",
    "and certificates of longer elements" );
CoxeterShellRefusals[35] := "a list of jobs has more than 16 blocks, or more than 1,000 lines";

# The line that marks the end of an answer, and what the program says to it.
BindGlobal( "CoxeterShellMark", "\t\n" );
BindGlobal( "CoxeterShellMarkAnswer", "error 19\n" );

# The most letters of a word.
BindGlobal( "CoxeterShellMostOfWord", 255 );

# The most bytes of a line, and those that are sent to one process before another one is started: it reads 16,777,216.
BindGlobal( "CoxeterShellMostOfLine", 4096 );
BindGlobal( "CoxeterShellMostOfInput", 16000000 );

# The groups whose programs run. GAP has room for 64 processes in all, so that the one that was started first is ended where there are more.
BindGlobal( "CoxeterShellRunning", [] );
BindGlobal( "CoxeterShellMostRunning", 40 );

#F  CoxeterShellForget( ) . . . . . . . . . . . . no group has a process from now on
##
##  A stream is a number, which belongs to the process of GAP that opened it. In another one, after a workspace was loaded or in a child of
##  this one, the number may be that of another stream: so it is neither asked nor closed there.
BindGlobal( "CoxeterShellForget", function()
    local W;
    while CoxeterShellRunning <> [] do
        W := Remove( CoxeterShellRunning );
        W!.stream := fail;
    od;
end );

# As the first of such functions: one of GAP's own reads the files that GAP is started with.
Add( GAPInfo.PostRestoreFuncs, CoxeterShellForget, 1 );

# The number of the process of GAP that the streams belong to, which the package IO tells; without it GAP has no children.
BindGlobal( "CoxeterShellOwner", [ 0 ] );

#F  CoxeterShellCheckOwner( ) . . . . . . . . . forgets the processes of the parent
BindGlobal( "CoxeterShellCheckOwner", function()
    local owner;
    if IsBoundGlobal( "IO_getpid" ) then
        owner := ValueGlobal( "IO_getpid" )();
        if CoxeterShellOwner[1] <> owner then
            if CoxeterShellOwner[1] <> 0 then
                CoxeterShellForget();
            fi;
            CoxeterShellOwner[1] := owner;
        fi;
    fi;
end );

#F  CoxeterShellRefuse( <number>, <line>, <detail> ) . . the error of a refusal, in words
##
##  <detail> says which of its causes it has, where that is known, and is else empty.
BindGlobal( "CoxeterShellRefuse", function( number, line, detail )
    local meaning;
    meaning := "a refusal that this package doesn't know";
    if IsBound( CoxeterShellRefusals[number] ) then
        meaning := CoxeterShellRefusals[number];
    fi;
    if detail <> "" then
        meaning := Concatenation( meaning, ": ", detail );
    fi;
    if Length( line ) > 100 then
        line := Concatenation( line{[ 1 .. 80 ]}, " .." );
    fi;
    ErrorNoReturn( Concatenation( "error ", String( number ), ": ", meaning, " (the line was ", line, ")" ) );
end );

#F  CoxeterShellOfCheckout( <folder> ) . . . . . . the program of a checkout
##
##  It is the one that the launcher runs at once, else one that was built there from other sources.
BindGlobal( "CoxeterShellOfCheckout", function( folder )
    local asked, said;
    asked := Filename( folder, "../launch/program" );
    said := "";
    if asked <> fail and IsExecutableFile( asked ) and
       Process( folder, asked, InputTextNone(), OutputTextString( said, true ), [ "--quiet", "coxeter" ] ) = 0 then
        return Filename( folder, Concatenation( "../", Chomp( said ) ) );
    fi;
    return Filename( folder, "../crates/coxeter/out/coxeter" );
end );

#F  CoxeterShellProgram( <path> ) . . . . . . . . . . . . the path of the program
##
##  It is <path>, else what the environment variable COXETER names, else the program of the checkout which this package lies in (built there,
##  or in its folder release), else the command on the PATH.
BindGlobal( "CoxeterShellProgram", function( path )
    local environment, folder, built;
    environment := GAPInfo.SystemEnvironment;
    if path = fail and IsRecord( environment ) and IsBound( environment.COXETER ) and environment.COXETER <> "" then
        path := environment.COXETER;
    fi;
    if path = fail then
        for folder in DirectoriesPackageLibrary( "CoxeterShell", "" ) do
            built := CoxeterShellOfCheckout( folder );
            if built <> fail and IsExecutableFile( built ) then
                return built;
            fi;
        od;
        path := Filename( DirectoriesSystemPrograms(), "coxeter" );
        if path = fail then
            ErrorNoReturn( "the program coxeter was not found: give its path by the option `program', or by the environment ",
                "variable COXETER, or put it on the PATH" );
        fi;
    fi;
    if not IsExecutableFile( path ) or IsDirectoryPath( path ) then
        ErrorNoReturn( "there is no program ", path );
    fi;
    return path;
end );

#F  CoxeterShellExchange( <W>, <line> ) . . . . . sends a line, and reads its answer
##
##  Where GAP is interrupted in the middle, W!.sure stays false, and the next question starts another process. To a blank line nothing but the
##  mark is answered: another program may never say that.
BindGlobal( "CoxeterShellExchange", function( W, line )
    local text, end_, found;
    W!.sure := false;
    text := Concatenation( line, "\n", CoxeterShellMark );
    W!.sent := W!.sent + Length( text );
    if WriteAll( W!.stream, text ) <> true then
        CoxeterShellClose( W );
        ErrorNoReturn( "the program ended before it was asked ", line );
    fi;
    found := "";
    end_ := Concatenation( "\n", CoxeterShellMarkAnswer );
    repeat
        # GAP can't be interrupted while it waits in ReadAll.
        repeat until UNIXSelect( [ FileDescriptorOfStream( W!.stream ) ], [], [], 0, 200000 ) > 0;
        text := ReadAll( W!.stream, 65536 );
        if text = fail then
            CoxeterShellClose( W );
            if line = "" then
                line := "anything: is it the program coxeter?";
            fi;
            ErrorNoReturn( "the program ended before it had answered ", line );
        fi;
        Append( found, text );
        if line = "" and not StartsWith( CoxeterShellMarkAnswer, found ) then
            CoxeterShellClose( W );
            ErrorNoReturn( "this is not the program coxeter, or its options are wrong: it says ", NormalizedWhitespace( found ) );
        fi;
    until found = CoxeterShellMarkAnswer or EndsWith( found, end_ );
    W!.sure := true;
    return SplitString( found{[ 1 .. Length( found ) - Length( CoxeterShellMarkAnswer ) ]}, "\n" );
end );

#F  CoxeterShellStart( <W> ) . . . . . . starts the process of a group, and sets it
BindGlobal( "CoxeterShellStart", function( W )
    local answer, path;
    CoxeterShellClose( W );
    path := CoxeterShellProgram( W!.program );
    if Length( CoxeterShellRunning ) >= CoxeterShellMostRunning then
        CoxeterShellClose( CoxeterShellRunning[1] );
    fi;
    Add( CoxeterShellRunning, W );
    W!.stream := InputOutputLocalProcess( DirectoryCurrent(), path, W!.arguments );
    if W!.stream = fail then
        CoxeterShellClose( W );
        ErrorNoReturn( "the program ", path, " can't be started: perhaps other packages run too many processes" );
    fi;
    W!.sent := 0;
    CoxeterShellExchange( W, "" );
    answer := CoxeterShellExchange( W, W!.group );
    if Length( answer ) = 1 and StartsWith( answer[1], "error " ) then
        CoxeterShellClose( W );
        CoxeterShellRefuse( Int( answer[1]{[ 7 .. Length( answer[1] ) ]} ), W!.group, "" );
    elif answer <> [] then
        CoxeterShellClose( W );
        ErrorNoReturn( "an unexpected answer to ", W!.group, ": nothing should have come, and not ", answer[1] );
    fi;
end );

#F  CoxeterShellHasEnded( <W> ) . . . . . . . . whether a process that runs has ended
##
##  It has nothing to say where it was not asked. So there is something to be read where it has ended alone: by Ctrl-C at the prompt, too,
##  which goes to all processes of the terminal.
BindGlobal( "CoxeterShellHasEnded", W -> UNIXSelect( [ FileDescriptorOfStream( W!.stream ) ], [], [], 0, 0 ) > 0 );

InstallGlobalFunction( CoxeterShellAsk, function( W, line )
    local answer, words, number;
    if not IsCoxeterShellGroup( W ) or not IsString( line ) then
        ErrorNoReturn( "usage: CoxeterShellAsk( <W>, <line> ) with a group of this package and a string" );
    fi;
    if Length( line ) > CoxeterShellMostOfLine then
        CoxeterShellRefuse( 18, line, "" );
    elif ForAny( line, it -> it < ' ' or it > '~' ) then
        CoxeterShellRefuse( 19, line, "" );
    fi;
    words := SplitString( line, "", " " );
    if words <> [] and words[1] in [ "type", "matrix" ] then
        ErrorNoReturn( "the group of this object stays: make another object for another group" );
    elif words in [ [ "quit" ], [ "jobs" ] ] then
        ErrorNoReturn( words[1], " is not answered at once: CoxeterShellClose ends the program, and questions are asked one by one" );
    fi;
    CoxeterShellCheckOwner();
    if W!.stream = fail or not W!.sure or W!.sent + Length( line ) + 4 > CoxeterShellMostOfInput or CoxeterShellHasEnded( W ) then
        CoxeterShellStart( W );
    fi;
    answer := CoxeterShellExchange( W, line );
    if Length( answer ) = 1 and StartsWith( answer[1], "error " ) then
        number := Int( answer[1]{[ 7 .. Length( answer[1] ) ]} );
        CoxeterShellRefuse( number, line, CoxeterShellReason( W, number, line ) );
    fi;
    return answer;
end );

InstallGlobalFunction( CoxeterShellClose, function( W )
    local at;
    CoxeterShellCheckOwner();
    at := PositionProperty( CoxeterShellRunning, it -> IsIdenticalObj( it, W ) );
    if at <> fail then
        Remove( CoxeterShellRunning, at );
    fi;
    if W!.stream <> fail then
        CloseStream( W!.stream );
        W!.stream := fail;
    fi;
end );
