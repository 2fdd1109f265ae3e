# Completions of csvload for bash: put this file into a folder that bash-completion reads, or source it.

# Names of files, each with what stands before it: of a folder with its slash, of another with a space behind it.
_csvload_files() {
    local before=$1 name
    mapfile -t COMPREPLY < <(compgen -f -- "$2")
    if [ -z "$before" ]; then
        compopt -o filenames
        return
    fi
    # Several names are one word, which readline takes for no file.
    compopt -o nospace
    for name in "${!COMPREPLY[@]}"; do
        [ -d "${COMPREPLY[name]}" ] && COMPREPLY[name]+=/
        printf -v "COMPREPLY[name]" '%s%q' "$before" "${COMPREPLY[name]}"
    done
}

_csvload() {
    local word=${COMP_WORDS[COMP_CWORD]} truths=() types=() options=()
    # <options> made by .ci/make_options
    truths=(header all_varchar allow_quoted_nulls null_padding ignore_errors store_rejects explain same_header stats
        pipeline)
    types=(BOOLEAN BIGINT DATE TIME TIMESTAMP VARCHAR)
    options=(delim= quote= escape= comment= header= skip= sample_size= names= types= column_types= all_varchar=
        nullstr= nulls= allow_quoted_nulls= null_padding= ignore_errors= store_rejects= rejects_limit= max_errors= to=
        table= output= stats= max_line_size= max_input= threads= range_size= pipeline=)
    case ${COMP_WORDS[1]} in
        batch) options+=(same_header=) ;;
        make) options=(rows=) ;;
        sniff) options+=(explain=) ;;
        split) options+=(size=) ;;
    esac
    # </options>
    COMPREPLY=()
    if [ "$COMP_CWORD" -eq 1 ]; then
        mapfile -t COMPREPLY < <(compgen -W 'load summary profile convert rejects batch sniff split make help version --help --version' -- "$word")
        return
    fi
    case ${COMP_WORDS[1]} in
        help)
            [ "$COMP_CWORD" -eq 2 ] && mapfile -t COMPREPLY < <(compgen -W 'options report' -- "$word")
            ;;
        make)
            compopt -o nospace
            [ "$COMP_CWORD" -eq 3 ] && mapfile -t COMPREPLY < <(compgen -W "${options[*]}" -- "$word")
            ;;
        load | summary | profile | convert | rejects | batch | sniff | split)
            if [ "$COMP_CWORD" -eq 2 ]; then
                # Of several names the last one is completed; what is quoted is taken as it is meant.
                local first= last
                [[ ${COMP_WORDS[1]} = batch && $word == *,* ]] && first=${word%,*},
                last=${word#"$first"} last=${last#[\"\']}
                _csvload_files "$first" "${last//\\/}"
                return
            fi
            compopt -o nospace
            # '=' and ':' break words in most settings of readline, so a value may stand as words of its own.
            local whole=$word place=$COMP_CWORD name= value=$word
            while ((place > 2)) && [[ ${COMP_WORDS[place]} == [=:] || ${COMP_WORDS[place - 1]} == [=:] ]]; do
                place=$((place - 1)) whole=${COMP_WORDS[place]}$whole
            done
            [[ $whole == *=* ]] && name=${whole%%=*} value=${whole#*=}
            case $name in
                to)
                    mapfile -t COMPREPLY < <(compgen -W 'csv sqlite npz' -- "$value")
                    ;;
                output)
                    # The file's name is a word of its own, or stands behind the option's.
                    compopt +o nospace
                    if [[ $word == *=* && $word != = ]]; then
                        _csvload_files output= "${value//\\/}"
                    else
                        _csvload_files '' "$value"
                    fi
                    return
                    ;;
                types | dtypes)
                    # Of several types the last one is completed.
                    local before=
                    [[ $value == *,* ]] && before=${value%,*},
                    mapfile -t COMPREPLY < <(compgen -P "$before" -W "${types[*]}" -- "${value##*,}")
                    ;;
                column_types)
                    # The type behind the last pair's name, which is a word of its own where ':' breaks words.
                    local pairs=${value%:*}:
                    [[ $COMP_WORDBREAKS == *:* ]] && pairs=
                    [[ ${value##*,} == *:* ]] && mapfile -t COMPREPLY < <(compgen -P "$pairs" -W "${types[*]}" -- "${value##*:}")
                    ;;
                '')
                    mapfile -t COMPREPLY < <(compgen -W "${options[*]}" -- "$word")
                    ;;
                *)
                    [[ " ${truths[*]} " == *" $name "* ]] && mapfile -t COMPREPLY < <(compgen -W 'true false' -- "$value")
                    ;;
            esac
            [[ $word == *=* && -n $name && $word != = ]] && COMPREPLY=("${COMPREPLY[@]/#/$name=}")
            ;;
    esac
}

complete -F _csvload csvload
