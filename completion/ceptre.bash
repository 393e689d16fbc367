# Completion of the command ceptre and of the scripts beside it for bash: source this file.

_ceptre() {
    local word=${COMP_WORDS[COMP_CWORD]} words options
    COMPREPLY=()
    # What stands after the = of an option is a number, which nobody completes.
    if [[ $word == *=* || ${COMP_WORDS[COMP_CWORD - 1]} == = ]]; then
        return
    fi
    if [ "$COMP_CWORD" = 1 ]; then
        mapfile -t COMPREPLY < <(compgen -W "$_ceptre_commands" -- "$word")
        return
    fi
    _ceptre_form "${COMP_WORDS[1]}"
    read -ra words <<<"${words-}"
    if [ "$COMP_CWORD" -lt $((${#words[@]} + 2)) ]; then
        _ceptre_offer "${words[COMP_CWORD - 2]}"
    else
        _ceptre_options ${options-}
    fi
}

# Completes with files of an ending and folders, with any file, with names in the world, with options, or with words.
_ceptre_offer() {
    case $1 in
    - | '') ;;
    .*) _ceptre_files "${1#.}" ;;
    FILE)
        mapfile -t COMPREPLY < <(compgen -f -- "$word")
        compopt -o filenames 2>/dev/null
        ;;
    rules | atoms)
        local IFS=$'\n'
        mapfile -t COMPREPLY < <(compgen -W "$("${COMP_WORDS[0]}" --names "$1" "${world-}" 2>/dev/null)" -- "$word")
        compopt -o filenames 2>/dev/null
        ;;
    *=*) _ceptre_options $1 ;;
    *) mapfile -t COMPREPLY < <(compgen -W "$1" -- "$word") ;;
    esac
}

# Completes with the files of an ending, and with folders. Readline quotes their names, and puts a slash after a folder.
_ceptre_files() {
    mapfile -t COMPREPLY < <(
        compgen -f -X "!*.$1" -- "$word"
        compgen -d -- "$word"
    )
    # Outside of a completion there is nothing to set.
    compopt -o filenames 2>/dev/null
}

# Completes with those of the options that are not given yet.
_ceptre_options() {
    local given=" ${COMP_WORDS[*]} " option
    given=${given// = /=}
    for option; do
        if [[ $option == "$word"* && $given != *" $option"* ]]; then
            COMPREPLY+=("$option")
        fi
    done
    compopt -o nospace 2>/dev/null
}

_ceptre_script() {
    local word=${COMP_WORDS[COMP_CWORD]} name=${COMP_WORDS[0]##*/} options words again value place=0 at world=
    name=${name#ceptre-}
    COMPREPLY=()
    _ceptre_script_form "$name"
    if [[ $word == -* ]]; then
        mapfile -t COMPREPLY < <(compgen -W "$options" -- "$word")
        return
    fi
    # The words before the cursor that are neither options nor their values.
    for ((at = 1; at < COMP_CWORD; at++)); do
        _ceptre_value "$name" "${COMP_WORDS[at - 1]}"
        [[ ${COMP_WORDS[at]} == -* || -n $value ]] && continue
        [ -n "$world" ] || world=${COMP_WORDS[at]}
        place=$((place + 1))
    done
    [ -z "$again" ] || [ $place -lt ${#words[@]} ] || place=$((${#words[@]} - 1))
    _ceptre_value "$name" "${COMP_WORDS[COMP_CWORD - 1]}"
    _ceptre_offer "${value:-${words[place]-}}"
}

complete -F _ceptre ceptre ./ceptre

# made by .ci/commands
_ceptre_commands='play check world renew cause again rounds weigh dead'

# What completes the words of a command, and its options.
_ceptre_form() {
    case $1 in
    play) words='.cep' options='seed= height= turns=' ;;
    check) words='.cep .log' options='' ;;
    world) words='-' options='seed= height= turns=' ;;
    renew) words='.cep .log' options='' ;;
    cause) words='.cep .log' options='' ;;
    again) words='.cep .log' options='seed=' ;;
    rounds) words='.cep' options='players= seed= height= turns=' ;;
    weigh) words='.cep .keeps' options='' ;;
    dead) words='.cep' options='' ;;
    esac
}

# The options of a script, and what completes its words.
_ceptre_script_form() {
    case $1 in
    explain) options='--help --version --all --hints --format --memory' words=('.cep' '.log') again= ;;
    follow) options='--help --version --at --context --causes --dot --memory' words=('.cep' '.log') again= ;;
    format) options='--help --version --check --memory' words=('.cep') again=1 ;;
    grade) options='--help --version --goal --height --end --typed --seed --turns --json --jobs --memory' words=('.cep' '.log') again=1 ;;
    map) options='--help --version --rules --state --memory' words=('.cep') again= ;;
    player) options='--help --version --log --load --from --rows --plain --memory' words=('.cep' 'seed= height= turns=') again=1 ;;
    publish) options='--help --version --title --output --transcript --site --players --seed --height --turns' words=('.cep') again= ;;
    replay) options='--help --version --seed --turns --typed --words --memory' words=('.cep' '.log') again= ;;
    sample) options='--help --version --runs --seed --players-by-seed --height --turns --goal --csv --keep --jobs --memory' words=('.cep') again= ;;
    server) options='--help --version' words=() again= ;;
    solve) options='--help --version --goal --stuck --states --seconds --by-seed --seed --height --turns --log --typed --plain --jobs --memory' words=('.cep') again= ;;
    why) options='--help --version --memory' words=('.cep' '.log' '-' 'rules' '-') again=1 ;;
    esac
}

# What completes the value of an option of a script.
_ceptre_value() {
    case $1:$2 in
    explain:--format) value='text gcc' ;;
    explain:--memory) value='-' ;;
    follow:--at) value='-' ;;
    follow:--causes) value='-' ;;
    follow:--memory) value='-' ;;
    format:--memory) value='-' ;;
    grade:--goal) value='atoms' ;;
    grade:--height) value='-' ;;
    grade:--end) value='quiet turns offers input typed atom state' ;;
    grade:--typed) value='FILE' ;;
    grade:--seed) value='-' ;;
    grade:--turns) value='-' ;;
    grade:--jobs) value='-' ;;
    grade:--memory) value='-' ;;
    map:--memory) value='-' ;;
    player:--log) value='FILE' ;;
    player:--load) value='FILE' ;;
    player:--from) value='.log' ;;
    player:--rows) value='-' ;;
    player:--memory) value='-' ;;
    publish:--title) value='-' ;;
    publish:--output) value='FILE' ;;
    publish:--transcript) value='.log' ;;
    publish:--site) value='FILE' ;;
    publish:--players) value='-' ;;
    publish:--seed) value='-' ;;
    publish:--height) value='-' ;;
    publish:--turns) value='-' ;;
    replay:--seed) value='-' ;;
    replay:--turns) value='-' ;;
    replay:--memory) value='-' ;;
    sample:--runs) value='-' ;;
    sample:--seed) value='-' ;;
    sample:--height) value='-' ;;
    sample:--turns) value='-' ;;
    sample:--goal) value='atoms' ;;
    sample:--keep) value='FILE' ;;
    sample:--jobs) value='-' ;;
    sample:--memory) value='-' ;;
    solve:--goal) value='atoms' ;;
    solve:--states) value='-' ;;
    solve:--seconds) value='-' ;;
    solve:--seed) value='-' ;;
    solve:--height) value='-' ;;
    solve:--turns) value='-' ;;
    solve:--log) value='FILE' ;;
    solve:--typed) value='FILE' ;;
    solve:--jobs) value='-' ;;
    solve:--memory) value='-' ;;
    why:--memory) value='-' ;;
    *) value= ;;
    esac
}

complete -F _ceptre_script {,./}tools/{explain,follow,format,grade,map,player,publish,replay,sample,server,solve,why} ceptre-{explain,follow,format,grade,map,player,publish,replay,sample,server,solve,why}
# end of what is made
