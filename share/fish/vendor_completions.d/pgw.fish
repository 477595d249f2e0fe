# Completions of pgw for fish: commands, options, codes, names of files, and of rules. tests/completions tries them.

# The first name of a file behind the command.
function __pgw_grammar
    for word in (commandline -opc)[3..]
        if test -f $word
            echo $word
            return
        end
    end
    return 1
end

# The rules of the grammar file: the names before an equals sign at the beginning of an item.
function __pgw_rules
    set -l grammar (__pgw_grammar)
    or return
    sed -e 's/"\([^"\\\\]\|\\\\.\)*"//g' -e 's/#.*//' -- $grammar | tr ';' '\n' |
        sed -n 's/^[[:space:]]*\([A-Za-z_][A-Za-z0-9_]*\)[[:space:]]*=.*/\1/p'
end

set -l codes A1 A2 A3 A4 A5 C1 C2 C3 C4 C5 C6 C7 C8 C9 C11 F1 F2 F3 F4 F5 F6 F7 F8 F9 P1 P2 P5 P6 T1 T2 T3 T4 T5 T6 T7 T8 T9 V1 V2 V3 V4 W1 X1 Y1 Y2 Y3 Y4

complete -c pgw -n __fish_use_subcommand -f
complete -c pgw -n __fish_use_subcommand -a check -d 'Says whether grammars are accepted, or what is wrong with them'
complete -c pgw -n __fish_use_subcommand -a explain -d 'Tells why a grammar is refused'
complete -c pgw -n __fish_use_subcommand -a verify -d 'Says whether a certificate shows that a grammar is accepted'
complete -c pgw -n __fish_use_subcommand -a parse -d 'Parses texts by a grammar and prints the trees'
complete -c pgw -n __fish_use_subcommand -a probe -d 'Runs a grammar on a text as Parsec would'
complete -c pgw -n __fish_use_subcommand -a replay -d 'Goes along a trail that parse printed'
complete -c pgw -n __fish_use_subcommand -a test -d 'Tries the cases of corpora by a grammar'
complete -c pgw -n __fish_use_subcommand -a sets -d 'Prints what can begin and follow each form'
complete -c pgw -n __fish_use_subcommand -a print -d 'Prints a grammar in canonical form'
complete -c pgw -n __fish_use_subcommand -a haskell -d 'Prints a grammar as a Haskell module'
complete -c pgw -n __fish_use_subcommand -a lsp -d 'Serves an editor'
complete -c pgw -n __fish_use_subcommand -a help -d 'Says more of the program, a command or a code'
complete -c pgw -n __fish_use_subcommand -s V -l version -d 'Prints the version'
complete -c pgw -s h -l help -d 'Says how it is called'

complete -c pgw -n '__fish_seen_subcommand_from check verify parse probe replay test' -s q -l quiet -d 'Prints nothing but trouble'
complete -c pgw -n '__fish_seen_subcommand_from check' -l certificate -d 'Prints what shows that it is accepted'
complete -c pgw -n '__fish_seen_subcommand_from check' -l cost -d 'Prints the step cost too'
complete -c pgw -n '__fish_seen_subcommand_from check' -l json -d 'Prints findings and faults as JSON, a line each'
complete -c pgw -n '__fish_seen_subcommand_from check' -l notes -d 'Prints with --json what is noted too'
complete -c pgw -n '__fish_seen_subcommand_from check' -l places -d 'Puts the place of each finding in front'
complete -c pgw -n '__fish_seen_subcommand_from parse' -l trail -d 'Prints what the derivation chose too'
complete -c pgw -n '__fish_seen_subcommand_from parse' -l tree -d 'Prints the trees to read'
complete -c pgw -n '__fish_seen_subcommand_from parse' -l places -d 'Prints the trees with their places'
complete -c pgw -n '__fish_seen_subcommand_from parse' -l lines -d 'Prints a line of JSON for each text'
complete -c pgw -n '__fish_seen_subcommand_from parse' -l steps -d 'Prints the steps of each parse too'
complete -c pgw -n '__fish_seen_subcommand_from probe' -l steps -x -d 'The most steps'
complete -c pgw -n '__fish_seen_subcommand_from probe' -l report -d 'Reads choice as the report of 2001 does'
complete -c pgw -n '__fish_seen_subcommand_from probe' -l trace -d 'Tells which rules are entered and left'
complete -c pgw -n '__fish_seen_subcommand_from probe' -l only -x -a '(__pgw_rules)' -d 'Traces only this rule'
complete -c pgw -n '__fish_seen_subcommand_from test' -l coverage -d 'Prints what no case tries too'
complete -c pgw -n '__fish_seen_subcommand_from test' -l json -d 'Prints a line of JSON for each case'
complete -c pgw -n '__fish_seen_subcommand_from test' -l only -x -d 'Tries only cases whose name contains this'
complete -c pgw -n '__fish_seen_subcommand_from test' -l probe -d 'Tries any grammar, as probe answers'
complete -c pgw -n '__fish_seen_subcommand_from test' -l update -d 'Prints the corpus with what came'
complete -c pgw -n '__fish_seen_subcommand_from test' -s v -l verbose -d 'Lists the cases that pass too'
complete -c pgw -n '__fish_seen_subcommand_from haskell' -l module -x -d 'The name of the module'
complete -c pgw -n '__fish_seen_subcommand_from lsp' -f
complete -c pgw -n '__fish_seen_subcommand_from explain; and __pgw_grammar >/dev/null' -f -a '(__pgw_rules)'
complete -c pgw -n '__fish_seen_subcommand_from help' -f -a "check explain verify parse probe replay test sets print haskell lsp $codes"
