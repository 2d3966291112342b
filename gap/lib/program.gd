#############################################################################
##
##  The program `coxeter`, as a process that answers lines
##
##  A group has a process of its own, which is started by the first question. After each question a line that is a single TAB is sent.
##  The program answers it `error 19`, and no question that is sent here has this answer: what comes before is the answer to the question.
##

DeclareCategory( "IsCoxeterShellGroup", IsObject );
BindGlobal( "CoxeterShellFamily", NewFamily( "CoxeterShellFamily", IsCoxeterShellGroup ) );
BindGlobal( "CoxeterShellType", NewType( CoxeterShellFamily, IsCoxeterShellGroup and IsComponentObjectRep ) );

#F  CoxeterShellAsk( <W>, <line> ) . . . . . . . the lines of the answer to a line
DeclareGlobalFunction( "CoxeterShellAsk" );

#F  CoxeterShellClose( <W> ) . . . . . . . . . . . ends the process of a group
DeclareGlobalFunction( "CoxeterShellClose" );

#V  CoxeterShellRefusals . . . . . . . . . .  what refusals mean, by their numbers
DeclareGlobalVariable( "CoxeterShellRefusals" );

#F  CoxeterShellReason( <W>, <number>, <line> ) . . the cause of a refusal, in words
DeclareGlobalFunction( "CoxeterShellReason" );
