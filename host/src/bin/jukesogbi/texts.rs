//! What several commands have in their help, or one at length.

/// Of commands that answer pairs.
pub const PAIRS: &str = "Without S T the oracle is checked once, and pairs `S T` are read from standard input, one a line, and answered one a line.
Each answer is written before the next line is waited for, so a program can hold the command open and converse.
A pair that is refused is answered by `refused N`. A line that is no pair (or no text, or longer than 4096 bytes) is answered by `wrong`.
Standard error then has the line's number and the cause, and the rest goes on. A blank line is passed over, without an answer.
At the end the status is 2 if a line was wrong, else 1 if a pair was refused, else 0.
An oracle that is refused, as are too few words, ends the command at once, with one `refused N` and status 1.";

/// Which time it is.
pub const LEAST: &str = "It is that of the quickest walk, and among those as quick of one with the fewest roads: `SECONDS ROADS far PAIRS`, or `.. local 0`.";

/// Of commands that may go by a day sheet.
pub const UNDER: &str = "With --sheet the roads are as that day sheet leaves them; `jukesogbi sheet --help` tells what its lines do.
A time found by a search over those roads is marked local, with 0 pairs. A sheet that is refused ends the command at once, with one `refused N`.";

/// What the lines of a day sheet do.
pub const LINES: &str = "TEXT has a line for each closure and each delay, and nothing else but blank lines, which are passed over:
  closed ROAD            nothing drives road ROAD
  delayed ROAD SECONDS   road ROAD takes SECONDS more
ROAD is a number from 0 to 65535, counted from 0 in the order of the network, and SECONDS one from 0 to 4294967295.
A closure holds over every delay of its road, wherever it stands, and among delays the last holds.
Where the last line about a closed road is a delay, standard error tells that the road stays closed: a closure ends where its lines are taken out.
Whether the roads are there is seen when the sheet is used.
A line of another form, or one longer than 4096 bytes, ends the command with its number and status 2, and nothing is written.";

/// How a wages sheet is entered.
pub const LEGS: &str = "Legs `S T` are read from standard input to its end, one a line, 1000 at the most; none is allowed. A leg may come again.
A line is printed for each, its seconds or `-` for none, and behind them `none K total SECONDS`: how many have none, and the sum of the others.
A sheet is answered or refused as a whole. A number beyond those of the places, however large, is refused by rule 12; more legs by rule 17.
A line that is no pair (or blank, or no text, or longer than 4096 bytes) ends the command with its number and status 2, and nothing is printed.";

/// What is compared, and what can be told before.
pub const COMPARED: &str = "All pairs of a start and an end count, one place twice included, and they are compared by seconds.
The two oracles may differ in grid and roads. They must have the same number of places.
The six numbers behind that of the pairs add up to it: slower, as quick and quicker in the second; newly none, with a time in the first alone;
newly reachable, with a time in the second alone; none in both.
The largest rise is the most seconds that a pair takes more, and then comes the first such pair, by start and then by end; `-` where none is slower.
Of built oracles it is proved that where one road takes K seconds more in the second network, and nothing else differs, no pair is quicker, newly none or
newly reachable, and none is slower by more than K.";

/// What becomes of an old network, and of its oracles.
pub const LEFT_OUT: &str = "NETWORK may be an old one, with closed roads in body 3; every other command refuses these, by rule 21.
NEW has the same places, and the roads that are open, in their order: each gets its old number less the closed ones before it.
Every time and way over NEW is what it was. Oracles are built anew from it, and day sheets converted by `jukesogbi convert-sheet`.
A network without closed roads stays as it is, byte for byte.";

/// What becomes of a sheet's lines.
pub const RENUMBERED: &str = "NETWORK is the old network that SHEET is for, and NEW is for the one that `jukesogbi convert` makes of it.
Lines about roads that are left out go; the others name their roads by the new numbers, in the order in which they stood.
A sheet that breaks rule 18 or 19 is refused. Rule 20 is looked at when the sheet is used.";

/// Of commands that write files.
pub const WRITES: &str = "An older file of that name is replaced when the new one is whole, and stays as it is where anything fails.";
