# Completions of fish for tsoq and tsoq-check. Copy this file to ~/.config/fish/completions/.
complete -c tsoq -n __fish_use_subcommand -f -a verify -d 'searches all runs of a program, for a certificate that they are good or a trace of one that is not'
complete -c tsoq -n __fish_use_subcommand -f -a check -d 'decides a certificate: where it is accepted, every run of the program is good'
complete -c tsoq -n __fish_use_subcommand -f -a upgrade -d 'writes an accepted certificate anew, in version 2, without a search'
complete -c tsoq -n __fish_use_subcommand -f -a coverage -d 'says what the records of an accepted certificate show, and what they leave out'
complete -c tsoq -n __fish_use_subcommand -f -a replay -d 'walks the machine along a trace, and prints its labels, the state and what is wrong'
complete -c tsoq -n __fish_use_subcommand -f -a survey -d 'searches all clients of a queue up to a size'
complete -c tsoq -n __fish_use_subcommand -f -a fences -d 'says which fences a client needs, or which would make it right'
complete -c tsoq -n __fish_use_subcommand -f -a parse -d 'reads a program, and says whether it is accepted and how many labels its runs have at most'
complete -c tsoq -n __fish_use_subcommand -f -a explain -d 'says what a code means, with a small text that is refused with it and the mended text'
complete -c tsoq -n '__fish_seen_subcommand_from verify' -l out -d 'where the certificate is written, if it is to be' -r -F
complete -c tsoq -n '__fish_seen_subcommand_from verify' -l trace -d 'where the trace is written, if it is to be' -r -F
complete -c tsoq -n '__fish_seen_subcommand_from verify' -l form -d 'which kind of certificates is searched for, 1, 2 or 3 [default: 1]' -x -a '1 2 3'
complete -c tsoq -n '__fish_seen_subcommand_from verify' -l workers -d 'how many workers search, 1 to 64 [default: 1]' -x
complete -c tsoq -n '__fish_seen_subcommand_from verify' -l states -d 'how many states the search may meet, 1 to 4194304 [default: 4194304]' -x
complete -c tsoq -n '__fish_seen_subcommand_from verify' -l stats -d 'says on standard error how much was met and written, and in what time'
complete -c tsoq -n '__fish_seen_subcommand_from verify' -l progress -d 'says on standard error how far the search has come'
complete -c tsoq -n '__fish_seen_subcommand_from verify' -l json -d 'prints objects of JSON, one a line, in place of the lines'
complete -c tsoq -n '__fish_seen_subcommand_from verify' -l client -d 'the calls of the threads, in place of the text\'s: push 1, push 2 | pop' -x
complete -c tsoq -n '__fish_seen_subcommand_from verify' -l before -d 'the calls of the prologue, in place of the text\'s; none where they are blank' -x
complete -c tsoq -n '__fish_seen_subcommand_from verify' -l mode -d 'strict or weak, in place of what the text says' -x -a 'strict weak'
complete -c tsoq -n '__fish_seen_subcommand_from verify' -l verbose -d 'says on standard error, behind the promised lines, why'
complete -c tsoq -n '__fish_seen_subcommand_from check' -l workers -d 'how many workers check, 1 to 64 [default: 1]' -x
complete -c tsoq -n '__fish_seen_subcommand_from check' -l json -d 'prints objects of JSON, one a line, in place of the lines'
complete -c tsoq -n '__fish_seen_subcommand_from check' -l client -d 'the calls of the threads, in place of the text\'s: push 1, push 2 | pop' -x
complete -c tsoq -n '__fish_seen_subcommand_from check' -l before -d 'the calls of the prologue, in place of the text\'s; none where they are blank' -x
complete -c tsoq -n '__fish_seen_subcommand_from check' -l mode -d 'strict or weak, in place of what the text says' -x -a 'strict weak'
complete -c tsoq -n '__fish_seen_subcommand_from check' -l verbose -d 'says on standard error, behind the promised lines, why'
complete -c tsoq -n '__fish_seen_subcommand_from upgrade' -l out -d 'where the new certificate is written' -r -F
complete -c tsoq -n '__fish_seen_subcommand_from upgrade' -l client -d 'the calls of the threads, in place of the text\'s: push 1, push 2 | pop' -x
complete -c tsoq -n '__fish_seen_subcommand_from upgrade' -l before -d 'the calls of the prologue, in place of the text\'s; none where they are blank' -x
complete -c tsoq -n '__fish_seen_subcommand_from upgrade' -l mode -d 'strict or weak, in place of what the text says' -x -a 'strict weak'
complete -c tsoq -n '__fish_seen_subcommand_from upgrade' -l verbose -d 'says on standard error, behind the promised lines, why'
complete -c tsoq -n '__fish_seen_subcommand_from coverage' -l workers -d 'how many workers check, 1 to 64 [default: 1]' -x
complete -c tsoq -n '__fish_seen_subcommand_from coverage' -l json -d 'prints objects of JSON, one a line, in place of the lines'
complete -c tsoq -n '__fish_seen_subcommand_from coverage' -l client -d 'the calls of the threads, in place of the text\'s: push 1, push 2 | pop' -x
complete -c tsoq -n '__fish_seen_subcommand_from coverage' -l before -d 'the calls of the prologue, in place of the text\'s; none where they are blank' -x
complete -c tsoq -n '__fish_seen_subcommand_from coverage' -l mode -d 'strict or weak, in place of what the text says' -x -a 'strict weak'
complete -c tsoq -n '__fish_seen_subcommand_from coverage' -l source -d 'prints the program\'s text as well, with a mark at each line'
complete -c tsoq -n '__fish_seen_subcommand_from coverage' -l verbose -d 'says on standard error, behind the promised lines, why'
complete -c tsoq -n '__fish_seen_subcommand_from replay' -l to -d 'goes back to the state after label K' -x
complete -c tsoq -n '__fish_seen_subcommand_from replay' -l json -d 'prints objects of JSON, one a line, in place of the lines'
complete -c tsoq -n '__fish_seen_subcommand_from replay' -l source -d 'prints the instruction beside each label, with its line'
complete -c tsoq -n '__fish_seen_subcommand_from replay' -l registers -d 'prints registers and flags after each label'
complete -c tsoq -n '__fish_seen_subcommand_from replay' -l buffers -d 'prints memory and store buffers after each label'
complete -c tsoq -n '__fish_seen_subcommand_from replay' -l brief -d 'prints no steps between registers, and a locked instruction as one line'
complete -c tsoq -n '__fish_seen_subcommand_from replay' -l history -d 'prints the calls with their answers, and how far they have an order'
complete -c tsoq -n '__fish_seen_subcommand_from replay' -l partial -d 'shows also a run in which nothing is wrong'
complete -c tsoq -n '__fish_seen_subcommand_from replay' -l html -d 'writes the run as a page that a browser shows' -r -F
complete -c tsoq -n '__fish_seen_subcommand_from replay' -l client -d 'the calls of the threads, in place of the text\'s: push 1, push 2 | pop' -x
complete -c tsoq -n '__fish_seen_subcommand_from replay' -l before -d 'the calls of the prologue, in place of the text\'s; none where they are blank' -x
complete -c tsoq -n '__fish_seen_subcommand_from replay' -l mode -d 'strict or weak, in place of what the text says' -x -a 'strict weak'
complete -c tsoq -n '__fish_seen_subcommand_from replay' -l verbose -d 'says on standard error, behind the promised lines, why'
complete -c tsoq -n '__fish_seen_subcommand_from survey' -l collect -d 'checks the certificates and replays the traces of a folder, and searches nothing' -x -a '(__fish_complete_directories)'
complete -c tsoq -n '__fish_seen_subcommand_from survey' -l clients -d 'a file of clients, a line each, in place of those within the bounds' -r -F
complete -c tsoq -n '__fish_seen_subcommand_from survey' -l threads -d 'how many threads a client has at most; 3 if not said' -x
complete -c tsoq -n '__fish_seen_subcommand_from survey' -l calls -d 'how many calls its threads have at most; 4 if not said' -x
complete -c tsoq -n '__fish_seen_subcommand_from survey' -l producers -d 'how many threads push at most; all if not said' -x
complete -c tsoq -n '__fish_seen_subcommand_from survey' -l consumers -d 'how many threads pop at most; all if not said' -x
complete -c tsoq -n '__fish_seen_subcommand_from survey' -l before -d 'how many pushes its prologue has at most, 0 to 4; none if not said' -x
complete -c tsoq -n '__fish_seen_subcommand_from survey' -l mode -d 'strict or weak, in place of what the text says' -x -a 'strict weak'
complete -c tsoq -n '__fish_seen_subcommand_from survey' -l out -d 'the folder where each client\'s text and certificate or trace are written' -x -a '(__fish_complete_directories)'
complete -c tsoq -n '__fish_seen_subcommand_from survey' -l part -d 'takes each Nth client alone, from the Ith on' -x
complete -c tsoq -n '__fish_seen_subcommand_from survey' -l list -d 'prints the clients that would be searched, a line each'
complete -c tsoq -n '__fish_seen_subcommand_from survey' -l all -d 'goes on behind a violation'
complete -c tsoq -n '__fish_seen_subcommand_from survey' -l coverage -d 'prints what the records of all certificates show together, before the last line'
complete -c tsoq -n '__fish_seen_subcommand_from survey' -l progress -d 'says on standard error how far the survey has come'
complete -c tsoq -n '__fish_seen_subcommand_from survey' -l json -d 'prints objects of JSON, one a line, in place of the lines'
complete -c tsoq -n '__fish_seen_subcommand_from survey' -l workers -d 'how many workers search, a client each, 1 to 64 [default: 1]' -x
complete -c tsoq -n '__fish_seen_subcommand_from survey' -l form -d 'which kind of certificates is searched for, 1, 2 or 3' -x -a '1 2 3'
complete -c tsoq -n '__fish_seen_subcommand_from survey' -l states -d 'how many states the search may meet, 1 to 4194304 [default: 4194304]' -x
complete -c tsoq -n '__fish_seen_subcommand_from survey' -l verbose -d 'says on standard error, behind the promised lines, why'
complete -c tsoq -n '__fish_seen_subcommand_from fences' -l add -d 'how many fences are added at most to a client that is not accepted, 1 to 8 [default: 2]' -x
complete -c tsoq -n '__fish_seen_subcommand_from fences' -l json -d 'prints objects of JSON, one a line, in place of the lines'
complete -c tsoq -n '__fish_seen_subcommand_from fences' -l client -d 'the calls of the threads, in place of the text\'s: push 1, push 2 | pop' -x
complete -c tsoq -n '__fish_seen_subcommand_from fences' -l before -d 'the calls of the prologue, in place of the text\'s; none where they are blank' -x
complete -c tsoq -n '__fish_seen_subcommand_from fences' -l mode -d 'strict or weak, in place of what the text says' -x -a 'strict weak'
complete -c tsoq -n '__fish_seen_subcommand_from fences' -l survey -d 'asks about the clients that a survey searches; --before is then how many pushes a prologue has at most'
complete -c tsoq -n '__fish_seen_subcommand_from fences' -l threads -d 'with --survey: how many threads a client has at most; 3 if not said' -x
complete -c tsoq -n '__fish_seen_subcommand_from fences' -l calls -d 'with --survey: how many calls its threads have at most; 4 if not said' -x
complete -c tsoq -n '__fish_seen_subcommand_from fences' -l producers -d 'with --survey: how many threads push at most; all if not said' -x
complete -c tsoq -n '__fish_seen_subcommand_from fences' -l consumers -d 'with --survey: how many threads pop at most; all if not said' -x
complete -c tsoq -n '__fish_seen_subcommand_from fences' -l workers -d 'how many workers search, a text each, 1 to 64 [default: 1]' -x
complete -c tsoq -n '__fish_seen_subcommand_from fences' -l states -d 'how many states the search may meet, 1 to 4194304 [default: 4194304]' -x
complete -c tsoq -n '__fish_seen_subcommand_from fences' -l verbose -d 'says on standard error, behind the promised lines, why'
complete -c tsoq -n '__fish_seen_subcommand_from parse' -l print -d 'prints the canonical text of the program'
complete -c tsoq -n '__fish_seen_subcommand_from parse' -l client -d 'the calls of the threads, in place of the text\'s: push 1, push 2 | pop' -x
complete -c tsoq -n '__fish_seen_subcommand_from parse' -l before -d 'the calls of the prologue, in place of the text\'s; none where they are blank' -x
complete -c tsoq -n '__fish_seen_subcommand_from parse' -l mode -d 'strict or weak, in place of what the text says' -x -a 'strict weak'
complete -c tsoq -n '__fish_seen_subcommand_from parse' -l verbose -d 'says on standard error, behind the promised lines, why'
complete -c tsoq -n '__fish_seen_subcommand_from explain' -f -a 'E01 E02 E03 E04 E05 E06 E07 E08 E09 E10 E11 E12 E13 E14 K01 K02 K03 K04 K05 K06 K07 K08 K09 K10 K11 K12 T01 T02 T03'
complete -c tsoq-check -l workers -d 'how many workers check, 1 to 64 [default: 1]' -x
complete -c tsoq-check -l json -d 'prints objects of JSON, one a line, in place of the lines'
complete -c tsoq-check -l client -d 'the calls of the threads, in place of the text\'s: push 1, push 2 | pop' -x
complete -c tsoq-check -l before -d 'the calls of the prologue, in place of the text\'s; none where they are blank' -x
complete -c tsoq-check -l mode -d 'strict or weak, in place of what the text says' -x -a 'strict weak'
complete -c tsoq-check -l collect -d 'checks the certificates and replays the traces of a folder, and searches nothing' -x -a '(__fish_complete_directories)'
complete -c tsoq-check -l clients -d 'a file of clients, a line each, in place of those within the bounds' -r -F
complete -c tsoq-check -l threads -d 'how many threads a client has at most; 3 if not said' -x
complete -c tsoq-check -l calls -d 'how many calls its threads have at most; 4 if not said' -x
complete -c tsoq-check -l producers -d 'how many threads push at most; all if not said' -x
complete -c tsoq-check -l consumers -d 'how many threads pop at most; all if not said' -x
