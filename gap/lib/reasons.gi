#############################################################################
##
##  Which of its causes a refusal has, in words with numbers
##

# Commands that are for finite groups as a whole.
BindGlobal( "CoxeterShellOfTheGroup", [ "lwgraph", "rwgraph", "lcells", "rcells", "lrcells", "module" ] );

# The most elements below that of a certificate, and of an interval where the option `context' says nothing else.
BindGlobal( "CoxeterShellMostOfCertificate", 4096 );

#F  CoxeterShellReasonOfSize( <W>, <words> ) . . . . . . what is too large for a command
BindGlobal( "CoxeterShellReasonOfSize", function( W, words )
    local context, size, below, total;
    context := W!.context;
    size := CoxeterShellSize( W );
    if words[1] in CoxeterShellOfTheGroup then
        if size = infinity then
            return "the group is infinite, and W-graphs, cells and their modules are for finite groups";
        elif size > context then
            return Concatenation( "the group has ", String( size ), " elements, and `context' allows ", String( context ) );
        fi;
        return "the group has an element of more than 255 letters";
    elif words[1] = "cert" then
        below := CoxeterShellExchange( W, Concatenation( "betti ", words[2] ) );
        if below <> [] and not StartsWith( below[1], "error" ) then
            return Concatenation( "there are ", String( Sum( SplitString( below[1], " " ), Int ) ), " elements below ", words[2],
                ", and a certificate has at most ", String( CoxeterShellMostOfCertificate ) );
        fi;
    fi;
    below := Last( words );
    if words[1] = "work" then
        below := "one of the words";
    fi;
    total := "";
    if size < infinity then
        total := Concatenation( " of ", String( size ) );
    fi;
    return Concatenation( "there are more than ", String( context ), " elements", total, " below ", below,
        ", and `context' allows no more" );
end );

#F  CoxeterShellReason( <W>, <number>, <line> ) . . the cause of a refusal, or the empty text
InstallGlobalFunction( CoxeterShellReason, function( W, number, line )
    local dots;
    if W!.matrix = fail then
        return "";
    elif number = 31 then
        return CoxeterShellReasonOfSize( W, SplitString( line, "", " " ) );
    elif number = 16 then
        dots := "";
        if Length( W!.matrix ) > 9 then
            dots := ", with dots between them";
        fi;
        return Concatenation( "the letters of ", ViewString( W ), " are 1 to ", String( Length( W!.matrix ) ), dots );
    fi;
    return "";
end );
