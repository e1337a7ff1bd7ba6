# Completes gameshrink in fish.

# The commands, each with what it does.
set -l commands \
    'shrink: print the signal classes of a game' \
    'check: print lossless classes' \
    'solve: print exact optimal strategies' \
    'path: print the pivots of solve' \
    'play: print strategies after turns of fictitious play' \
    'evaluate: check a strategy, and print its value and gaps' \
    'query: print how a player acts' \
    'judge: print value and gaps over any classes' \
    'duel: play two strategies against each other' \
    'certify: print a strategy and a certificate' \
    'verify: check a strategy and a certificate' \
    'upgrade: print a strategy in version 2' \
    'make: print the game file of a well-known game'
set -l all (string split -f 1 : -- $commands)
set -l first "not __fish_seen_subcommand_from $all"

# Whether an option, named first, stands not yet with one of the commands behind it, or just now and lacks its value.
function __gameshrink_takes
    __fish_seen_subcommand_from $argv[2..]
    and begin
        not __fish_contains_opt $argv[1]
        or begin
            test $argv[1] != summary
            and __fish_prev_arg_in --$argv[1]
        end
    end
end

complete -c gameshrink -f
for command in $commands
    complete -c gameshrink -n $first -a (string split -f 1 : -- $command) -d (string split -m 1 -f 2 ': ' -- $command)
end

complete -c gameshrink -n '__gameshrink_takes classes check solve path play' -l classes -x -a 'ogi split raw' -d 'which classes'
complete -c gameshrink -n '__gameshrink_takes summary shrink check make' -l summary -d 'print counts alone'
complete -c gameshrink -n '__gameshrink_takes turns play' -l turns -x -d 'how many turns, 0 to 1000000'
complete -c gameshrink -n '__gameshrink_takes player query' -l player -x -a '1 2' -d 'which player'
complete -c gameshrink -n '__gameshrink_takes line query' -l line -x -d 'the moves so far, as /kb'
complete -c gameshrink -n '__gameshrink_takes signal query' -l signal -x -d 'the hand, as Js/+Qs'
complete -c gameshrink -n '__gameshrink_takes kind make' -l kind -x -a 'kuhn leduc rhode' -d 'which game'
complete -c gameshrink -n '__gameshrink_takes ranks make' -l ranks -x -a '1 2 3 4 5 6 7 8 9 10 11 12 13' -d ranks
complete -c gameshrink -n '__gameshrink_takes suits make' -l suits -x -a '1 2 3 4' -d suits
complete -c gameshrink -n '__gameshrink_takes cap make' -l cap -x -a '0 1 2 3 4 5 6 7 8' -d 'bets and raises of a round'
