//! What each command is for, and how it is called.

pub const ALL: &str = "\
plancheck: judges plans by the proved checker, shows, trims, searches, plans and imports them, writes sheets, adds to
them, and turns variables one by one

  plancheck judge SHEET RECORD               the answer, as one line
  plancheck explain SHEET RECORD             the answer in plain words, with its place
  plancheck stats SHEET RECORD               what the record is made of
  plancheck text SHEET                       the sheet as text
  plancheck text --record SHEET RECORD       the record as text
  plancheck pack TEXT -o FILE                from text back to bytes
  plancheck add SHEET TEXT -o OUT            the sheet with the clauses of a text behind its own
  plancheck write SHEET -o OUT               the sheet in the one way to write it, to compare it with others
  plancheck trim SHEET RECORD -o OUT         the record without the steps that lead nowhere
  plancheck search SHEET                     the best plan that the proved search finds, without a record
  plancheck try SHEET [RECORD]               turns variables one by one, and tells which clauses that breaks and mends
  plancheck plan SHEET -o RECORD             plans the sheet
  plancheck plan --steps N SHEET -o RECORD   plans it in N steps at most, and stops early if they do not suffice
  plancheck import FILE.wcnf -o SHEET        a sheet from the weighted DIMACS form

plancheck COMMAND --help says more. docs/GUIDE.md is a first hour with all of them.
Exit codes: 0 done or accepted, 1 refused, 2 wrong use, a file that cannot be read or written, or planning that was stopped and
has nothing to say, 3 within a gap, which is neither accepted nor refused.
";

pub const JUDGE: &str = "\
plancheck judge SHEET RECORD

Prints the proved checker's line, one of four:

  least C open O steps T             accepted: C is the least cost
  none open 0 steps T                accepted: no assignment satisfies every clause
  within G cost C open O steps T     neither: the assignment satisfies every clause and costs C, and the least cost is C - G at
                                     least; that C is the least is not shown
  refused N at P                     refused, with number and place

Exit code 0 for least and none, 1 for a refusal, 2 for wrong use and files that cannot be read, 3 for within.
";

pub const EXPLAIN: &str = "\
plancheck explain SHEET RECORD

Prints the proved checker's line, what it says in plain words, and the place that it names: the clause or the step as text,
and the clauses, costs or steps that it cites. Where an independent set is none, the clause at fault comes first, with what would
mend the step. Exit codes as with judge.

A resolution has to hold every literal of the two steps that it cites but the pivot's, and its bound may not be above the lesser
of theirs. It may hold further literals, and its bound may be below. Where the pivot or a literal is missing, a line below the
cited step says so; a mend comes last, unless the two steps do not resolve at all.

For a weighted step a table shows how its bound comes about. A variable's remainder begins as the divisor times its
cost; each cited clause takes its weight away where it has the variable positive, and adds it where it has it negative. A variable adds its remainder where it
is settled true, nothing where it is settled false, and where it is unsettled its remainder if that is below 0. A cited clause adds
its weight times (1 - its negative literals). If the divisor or a weight is 0, or the bound is another, mends come last.

Of a marked sheet the loss stands in every sum: in the assignment's cost, and in the bounds of cost steps, independent sets and
weighted steps, there after the rounding.
";

pub const STATS: &str = "\
plancheck stats SHEET RECORD

Prints the proved checker's line, then counts: steps by kind, literals, clauses with weights, bytes, the depth of the last
step's derivation, and how many earlier steps the last one rests on. Where a record that is not refused has further steps, they
are counted as idle: 'plancheck trim' leaves them out. The line of a marked sheet has its loss. Exit code 0 whatever the first
line says, 1 where the layout cannot be read.
";

pub const TEXT: &str = "\
plancheck text SHEET [-o TEXT]
plancheck text --record SHEET RECORD [-o TEXT]

Writes a valid sheet, or a record whose head and pairs are right, as lines to read and edit; pack is the way back.

  sheet                          record
  cost 1 3                       variables 2
  loss 4                         claim 7                             or: claim none
  clause 1 -2                    assign 1                            the variables that are true
                                 copy 1 : 1 2 bound none             clause 1
                                 cost : -1 bound 7
                                 independent 1 2 : -3 bound 9        clauses 1 and 2
                                 resolve 1 2 on 2 : 1 bound none     steps 1 and 2, pivot 2
                                 weighted 1*3 2*4 over 2 : bound 8   clause 1 of weight 3, clause 2 of weight 4, divisor 2
                                 raw 09 00                           bytes that are no step

A literal is a variable's number, negative for a negative literal. # begins a comment. 'assign raw' and bytes stand for an
assignment with bits that belong to no variable. A line 'loss' stands in the text of a marked sheet and in no other, once,
behind the costs: what every assignment costs, whatever is true in it. 'loss 0' is a mark too.
";

pub const PACK: &str = "\
plancheck pack TEXT -o FILE

Turns the text of a sheet or of a record into the file. See 'plancheck text --help' for the lines. Faults name the line.
What the file's fields can hold is written, right or wrong; 'plancheck judge' says which. The number of variables has 15 bits,
so that 32767 are the most, of a sheet and of its record: the highest bit of its field is the mark.
";

pub const ADD: &str = "\
plancheck add SHEET TEXT -o OUT

Writes a valid sheet with the clauses of TEXT behind its own, in their order. TEXT has lines 'clause' as the text of a sheet has
them, and comments, and nothing else: see 'plancheck text --help'. The clauses of SHEET keep their numbers and their bytes. The
costs stay, and so does the mark with its loss, even where that is 0. What stands in SHEET already is added once more.

A record that is accepted or within a gap beside SHEET has the same answer beside OUT, if its assignment satisfies every added
clause, or if it claims none. If neither, it is refused there with 10, at the first added clause that its assignment breaks, and
OUT is to be planned anew. Of a record that is refused beside SHEET nothing is said.

OUT may be SHEET itself, but not TEXT, which would be lost. Keep SHEET where a record of it may break an added clause: the record
is right beside SHEET alone. Prints how many clauses and bytes OUT has, and the numbers of those that were added.

Exit code 0 for a sheet that is written. 1 for a refused sheet, for a text with a fault or without any clause, and for more than
4096 clauses together: that leaves OUT as it was, and a fault of the text names its line, or the byte where it is no text. 2 for
wrong use and files that cannot be read or written. Where OUT cannot be written, a file that stood there stays as it was.
";

pub const WRITE: &str = "\
plancheck write SHEET -o OUT

Writes the canonical sheet of a valid one, as the proved writer has it: the same variables, costs and loss, the clauses sorted
by the codes of their literals, a clause before those that begin with it, each clause once. The literal v has the code 2 v, and
-v has 2 v + 1. A mark whose loss is 0 is left out, and one with a loss stays. Sheets with the same variables, costs, loss and
set of clauses come out byte for byte alike, and no others do. A sheet that is canonical already stays as it is.

Clauses may get other numbers, and a record cites them by number: it keeps to the sheet that it was made for. OUT may be SHEET
itself, but a record that was made for the old sheet loses it then. So keep that sheet beside its record, or plan the canonical
one.

Exit code 0 for a sheet that is written, 1 for a refused one, which leaves OUT as it was, 2 for wrong use and files that cannot
be read or written. Where OUT cannot be written, a file that stood there stays as it was.
";

pub const TRIM: &str = "\
plancheck trim SHEET RECORD -o OUT

Writes the record without its idle steps, as the proved trimmer has it. The last step is kept, and each step that a kept one
cites, in their order; all others are idle and are left out. Claim and assignment stay. Resolutions cite by the new numbers, and
nothing else in a kept step changes. A record without idle steps stays as it is.

Judged beside the same sheet, the trimmed record has the record's answer, but for the step count. What idle steps show by
themselves is gone: where the last step is weak and an earlier one is better, the better one goes. OUT may be RECORD itself, but
not SHEET, which would be lost.

Prints how many steps are kept, the bytes after and before, which share of these is saved, rounded down ('under 1%' below that),
and the answer; or that nothing was to be trimmed, and OUT is then a copy of RECORD. Where the answer is 'within', and an idle step
without literals has a greater bound than the last step, one more line names the best such step, the first of several:

  step 5, which is left out, shows more: bound 3

Exit code 0 for a record that is trimmed, within a gap too, since the work is done: ask 'plancheck judge' for acceptance. 1 for a
refused record or sheet, which leaves OUT as it was, 2 for wrong use and files that cannot be read or written. Where OUT cannot
be written, a file that stood there stays as it was.
";

pub const SEARCH: &str = "\
plancheck search [--budget N] SHEET

Looks for a plan of least cost by the proved search, in a sheet of 64 variables at most, and prints the best one that it finds,
for example:

  assign 2 3                      the variables that are true; or: no plan
  cost 5                          what the plan costs, the loss of a marked sheet included
  floor 5                         no plan costs less; none where no plan exists
  ended after 4 choices: ...      whether everything was tried, and what is known by that

The search takes variables by number, false before true. What a clause leaves no choice about is set at once. A branch is left
where a clause is false, or where it costs no less than the best plan. --budget N allows N choices; without it there are
10000000, which take a few seconds at most, for most sheets. Where they are spent before everything was tried, the search has not
ended: the plan is the best so far, and the floor says how far it may be from the least cost.

Once the search has ended, the plan is of the least cost. Of several such plans it is the first: at the lowest variable in which
two of them differ, it has false. No larger budget changes the answer then.

The search leaves no record. What it says is proved to be so, but a store wants a record, which 'plancheck plan' makes.

On a terminal a long search tells on standard error how it gets on. To that end it begins anew with twice the budget, again and
again, up to N. All of that together is less than 2 N choices.

Exit code 0 for every answer, also where the search has not ended or no plan exists, 1 for a refused sheet, 2 for wrong use and
files that cannot be read.
";

pub const TRY: &str = "\
plancheck try SHEET [RECORD]

Reads variables from standard input, one a line, and turns each: to true if it is false, and to false if it is true. It begins
with every variable false, or with the assignment of RECORD, whatever else is in that: RECORD is not judged. A clause is broken
where none of its literals is true, and mended where one is again. A line is printed at the start, and one as soon as a variable
is turned, with its new value, the clauses that this mended and broke, and how many are broken now:

  start: 3 broken: 1 2 3
  2 true: mended 1 2; 1 broken
  1 true: mended 3, broke 4; 1 broken
  2 false: mended 4, broke 2; 1 broken
  3 true: mended 2; 0 broken

Where a turn mends nothing and breaks nothing, its line says 'no change' instead, and where nothing is broken at the start, that
line ends with '0 broken'. Every turn is the proved library's, and so are the counts. On a terminal a list ends after 20 clauses
and says how many more there are; elsewhere all of them are told. Where the input is a terminal, standard error asks for each
line, and Ctrl-D ends.

Blank lines do nothing, and # begins a comment. A line that is anything but one variable from 1 to the last is told on standard
error, with its number, and turns nothing; so is one of more than 1000 bytes. The lines after it are read.

Exit code 0 where every line was taken, 1 where one was not, for a refused sheet, and for a record that is too short to have an
assignment, 2 for wrong use and files that cannot be read. SHEET and RECORD cannot be standard input.
";

pub const PLAN: &str = "\
plancheck plan [--tree | --unweighted] [--steps N] SHEET -o RECORD

Finds a least-cost assignment by branch and bound, writes the record, and prints what the proved checker says to it. This can
take long on large sheets. --unweighted does without weighted steps. --tree tries every assignment instead, for 16 variables at
most. Costs include the loss of a marked sheet. The record has no idle steps: it is trimmed, as by 'plancheck trim', before it is
written. Exit codes as with judge.

--steps N writes N steps at most. The planner then stops after 10,000 conflicts, and one more for each step. Where it has come to
its end by then, and its proof has N steps at most, the record is the one that it writes without --steps. Else it is the best
assignment found, with as good a lower bound as N steps give, and the answer is 'within' unless that bound is the cost. Where
no assignment was found, and the steps do not show that none exists, nothing is written and the exit code is 2. Not with --tree.
";

pub const IMPORT: &str = "\
plancheck import FILE.wcnf -o SHEET

Reads 'p wcnf VARIABLES CLAUSES TOP' with hard clauses of weight TOP, or the newer form with 'h' in front of hard clauses.
A soft clause has to be one negative literal: its weight is the variable's cost. Or it has no literal: nothing satisfies it,
and its weight is lost in any case. What is lost adds up to the loss, and the sheet is marked where that is above 0. What a
sheet cannot hold is refused, with the line and the reason.
";
