# Completion of the command ceptre and of the scripts beside it for fish: source this file.

# Whether so many words stand before the cursor, the command's name among them.
function __ceptre_words
    test (count (commandline -opc)) -eq $argv[1]
end

# Whether that is so, and the second one is this command.
function __ceptre_at
    set -l words (commandline -opc)
    test (count $words) -eq $argv[1]; and test "$words[2]" = $argv[2]
end

# Whether an option of this command may stand here, and was not given yet.
function __ceptre_may
    set -l words (commandline -opc)
    test (count $words) -ge 3; and test "$words[2]" = $argv[2]; and not string match -q -- "$argv[1]*" $words
end

# Compares how many words without a dash stand before the cursor, the script's name among them.
function __ceptre_arguments
    test (count (string match -v -- '-*' (commandline -opc))) $argv
end

# The rules or the atoms of the world, which is the first word that ends so.
function __ceptre_names
    set -l words (commandline -opc)
    $words[1] --names $argv[1] (string match -- '*.cep' $words)[1] 2>/dev/null
end

complete -c ceptre -f

# made by .ci/commands
complete -c ceptre -n '__ceptre_words 1' -a play -d 'play a world'
complete -c ceptre -n '__ceptre_at 2 play' -k -a '(__fish_complete_suffix .cep)'
complete -c ceptre -n '__ceptre_may seed= play' -a seed=
complete -c ceptre -n '__ceptre_may height= play' -a height=
complete -c ceptre -n '__ceptre_may turns= play' -a turns=
complete -c ceptre -n '__ceptre_words 1' -a check -d 'check a transcript against a world'
complete -c ceptre -n '__ceptre_at 2 check' -k -a '(__fish_complete_suffix .cep)'
complete -c ceptre -n '__ceptre_at 3 check' -k -a '(__fish_complete_suffix .log)'
complete -c ceptre -n '__ceptre_words 1' -a world -d 'run a generated world of so many rooms'
complete -c ceptre -n '__ceptre_may seed= world' -a seed=
complete -c ceptre -n '__ceptre_may height= world' -a height=
complete -c ceptre -n '__ceptre_may turns= world' -a turns=
complete -c ceptre -n '__ceptre_words 1' -a renew -d 'write a legal transcript again in the newest version'
complete -c ceptre -n '__ceptre_at 2 renew' -k -a '(__fish_complete_suffix .cep)'
complete -c ceptre -n '__ceptre_at 3 renew' -k -a '(__fish_complete_suffix .log)'
complete -c ceptre -n '__ceptre_words 1' -a cause -d 'list on which earlier steps of a transcript each step rests'
complete -c ceptre -n '__ceptre_at 2 cause' -k -a '(__fish_complete_suffix .cep)'
complete -c ceptre -n '__ceptre_at 3 cause' -k -a '(__fish_complete_suffix .log)'
complete -c ceptre -n '__ceptre_words 1' -a again -d 'do the steps of a transcript again in another order'
complete -c ceptre -n '__ceptre_at 2 again' -k -a '(__fish_complete_suffix .cep)'
complete -c ceptre -n '__ceptre_at 3 again' -k -a '(__fish_complete_suffix .log)'
complete -c ceptre -n '__ceptre_may seed= again' -a seed=
complete -c ceptre -n '__ceptre_words 1' -a rounds -d 'play a world with several players at once'
complete -c ceptre -n '__ceptre_at 2 rounds' -k -a '(__fish_complete_suffix .cep)'
complete -c ceptre -n '__ceptre_may players= rounds' -a players=
complete -c ceptre -n '__ceptre_may seed= rounds' -a seed=
complete -c ceptre -n '__ceptre_may height= rounds' -a height=
complete -c ceptre -n '__ceptre_may turns= rounds' -a turns=
complete -c ceptre -n '__ceptre_words 1' -a weigh -d 'judge claims about weights by the rules of a world'
complete -c ceptre -n '__ceptre_at 2 weigh' -k -a '(__fish_complete_suffix .cep)'
complete -c ceptre -n '__ceptre_at 3 weigh' -k -a '(__fish_complete_suffix .keeps)'
complete -c ceptre -n '__ceptre_words 1' -a dead -d 'list the rules of a world that can never apply'
complete -c ceptre -n '__ceptre_at 2 dead' -k -a '(__fish_complete_suffix .cep)'

for place in '-c ceptre-explain' '-p */tools/explain'
    set -l at (string split ' ' -- $place)
    complete $at -f
    complete $at -l help -d 'what it does'
    complete $at -l version -d 'its version'
    complete $at -l all -d 'several refusals'
    complete $at -l hints -d 'of an accepted world the hints alone'
    complete $at -x -l format -a 'text gcc' -d 'as lines for people'
    complete $at -x -l memory -d 'the most that the program may take'
    complete $at -n '__ceptre_arguments -eq 1' -k -a '(__fish_complete_suffix .cep)'
    complete $at -n '__ceptre_arguments -eq 2' -k -a '(__fish_complete_suffix .log)'
end

for place in '-c ceptre-follow' '-p */tools/follow'
    set -l at (string split ' ' -- $place)
    complete $at -f
    complete $at -l help -d 'what it does'
    complete $at -l version -d 'its version'
    complete $at -x -l at -d 'the state after step K'
    complete $at -l context -d 'with --at'
    complete $at -x -l causes -d 'the earlier steps that step K rests on'
    complete $at -l dot -d 'all of these causes'
    complete $at -x -l memory -d 'the most that the program may take'
    complete $at -n '__ceptre_arguments -eq 1' -k -a '(__fish_complete_suffix .cep)'
    complete $at -n '__ceptre_arguments -eq 2' -k -a '(__fish_complete_suffix .log)'
end

for place in '-c ceptre-format' '-p */tools/format'
    set -l at (string split ' ' -- $place)
    complete $at -f
    complete $at -l help -d 'what it does'
    complete $at -l version -d 'its version'
    complete $at -l check -d 'write nothing'
    complete $at -x -l memory -d 'the most that the program may take'
    complete $at -n '__ceptre_arguments -ge 1' -k -a '(__fish_complete_suffix .cep)'
end

for place in '-c ceptre-grade' '-p */tools/grade'
    set -l at (string split ' ' -- $place)
    complete $at -f
    complete $at -l help -d 'what it does'
    complete $at -l version -d 'its version'
    complete $at -x -l goal -a '(__ceptre_names atoms)' -d 'an atom of the last state '
    complete $at -x -l height -d 'the most that is allowed'
    complete $at -x -l end -a 'quiet turns offers input typed atom state' -d 'the end word that is asked'
    complete $at -r -F -l typed -d 'what all were to type'
    complete $at -x -l seed -d 'the seed of what is played again'
    complete $at -x -l turns -d 'the turns of what is played again'
    complete $at -l json -d 'in the shape of Gradescopes results.json'
    complete $at -x -l jobs -d 'how many at once'
    complete $at -x -l memory -d 'the most that the program may take'
    complete $at -n '__ceptre_arguments -eq 1' -k -a '(__fish_complete_suffix .cep)'
    complete $at -n '__ceptre_arguments -ge 2' -k -a '(__fish_complete_suffix .log)'
end

for place in '-c ceptre-map' '-p */tools/map'
    set -l at (string split ' ' -- $place)
    complete $at -f
    complete $at -l help -d 'what it does'
    complete $at -l version -d 'its version'
    complete $at -l rules -d 'the rules'
    complete $at -l state -d 'what the start joins by predicates of two equal types'
    complete $at -x -l memory -d 'the most that the program may take'
    complete $at -n '__ceptre_arguments -eq 1' -k -a '(__fish_complete_suffix .cep)'
end

for place in '-c ceptre-player' '-p */tools/player'
    set -l at (string split ' ' -- $place)
    complete $at -f
    complete $at -l help -d 'what it does'
    complete $at -l version -d 'its version'
    complete $at -r -F -l log -d 'keep the transcript'
    complete $at -r -F -l load -d 'begin with the choices that were saved there'
    complete $at -x -l from -k -a '(__fish_complete_suffix .log)' -d 'begin with the steps of this transcript'
    complete $at -x -l rows -d 'the rows of a page'
    complete $at -l plain -d 'the programs own texts'
    complete $at -x -l memory -d 'the most that the program may take'
    complete $at -n '__ceptre_arguments -eq 1' -k -a '(__fish_complete_suffix .cep)'
    complete $at -n '__ceptre_arguments -ge 2' -a 'seed= height= turns='
end

for place in '-c ceptre-publish' '-p */tools/publish'
    set -l at (string split ' ' -- $place)
    complete $at -f
    complete $at -l help -d 'what it does'
    complete $at -l version -d 'its version'
    complete $at -x -l title -d 'the title of the page'
    complete $at -r -F -l output -d 'where the page is written '
    complete $at -x -l transcript -k -a '(__fish_complete_suffix .log)' -d 'show this transcript of the world'
    complete $at -r -F -l site -d 'make pages of all worlds of this folder'
    complete $at -x -l players -d 'how many play in rounds'
    complete $at -x -l seed -d 'the seed of the first game '
    complete $at -x -l height -d 'as for ceptre play'
    complete $at -x -l turns -d 'as for ceptre play'
    complete $at -n '__ceptre_arguments -eq 1' -k -a '(__fish_complete_suffix .cep)'
end

for place in '-c ceptre-replay' '-p */tools/replay'
    set -l at (string split ' ' -- $place)
    complete $at -f
    complete $at -l help -d 'what it does'
    complete $at -l version -d 'its version'
    complete $at -x -l seed -d 'as for ceptre play'
    complete $at -x -l turns -d 'as for ceptre play'
    complete $at -l typed -d 'write what is typed'
    complete $at -l words -d 'write the options of ceptre play for it'
    complete $at -x -l memory -d 'the most that the program may take'
    complete $at -n '__ceptre_arguments -eq 1' -k -a '(__fish_complete_suffix .cep)'
    complete $at -n '__ceptre_arguments -eq 2' -k -a '(__fish_complete_suffix .log)'
end

for place in '-c ceptre-sample' '-p */tools/sample'
    set -l at (string split ' ' -- $place)
    complete $at -f
    complete $at -l help -d 'what it does'
    complete $at -l version -d 'its version'
    complete $at -x -l runs -d 'how many runs '
    complete $at -x -l seed -d 'the seed of the first run '
    complete $at -l players-by-seed -d 'draw what a player chooses'
    complete $at -x -l height -d 'as for ceptre play'
    complete $at -x -l turns -d 'as for ceptre play'
    complete $at -x -l goal -a '(__ceptre_names atoms)' -d 'count the last states that have it'
    complete $at -l csv -d 'a row for each run in place of the table'
    complete $at -r -F -l keep -d 'keep the transcript of each run there'
    complete $at -x -l jobs -d 'how many at once'
    complete $at -x -l memory -d 'the most that the program may take'
    complete $at -n '__ceptre_arguments -eq 1' -k -a '(__fish_complete_suffix .cep)'
end

for place in '-c ceptre-server' '-p */tools/server'
    set -l at (string split ' ' -- $place)
    complete $at -f
    complete $at -l help -d 'what it does'
    complete $at -l version -d 'its version'
end

for place in '-c ceptre-solve' '-p */tools/solve'
    set -l at (string split ' ' -- $place)
    complete $at -f
    complete $at -l help -d 'what it does'
    complete $at -l version -d 'its version'
    complete $at -x -l goal -a '(__ceptre_names atoms)' -d 'an atom '
    complete $at -l stuck -d 'the states from which no goal can be reached'
    complete $at -x -l states -d 'how many states are seen at most '
    complete $at -x -l seconds -d 'how long to search at most'
    complete $at -l by-seed -d 'keep to what the seed chooses'
    complete $at -x -l seed -d 'as for ceptre play'
    complete $at -x -l height -d 'as for ceptre play'
    complete $at -x -l turns -d 'as for ceptre play'
    complete $at -r -F -l log -d 'write the transcript of the way'
    complete $at -r -F -l typed -d 'write what is typed'
    complete $at -l plain -d 'the programs own texts'
    complete $at -x -l jobs -d 'how many at once'
    complete $at -x -l memory -d 'the most that the program may take'
    complete $at -n '__ceptre_arguments -eq 1' -k -a '(__fish_complete_suffix .cep)'
end

for place in '-c ceptre-why' '-p */tools/why'
    set -l at (string split ' ' -- $place)
    complete $at -f
    complete $at -l help -d 'what it does'
    complete $at -l version -d 'its version'
    complete $at -x -l memory -d 'the most that the program may take'
    complete $at -n '__ceptre_arguments -eq 1' -k -a '(__fish_complete_suffix .cep)'
    complete $at -n '__ceptre_arguments -eq 2' -k -a '(__fish_complete_suffix .log)'
    complete $at -n '__ceptre_arguments -eq 4' -a '(__ceptre_names rules)'
end
# end of what is made
