# Completion of walbryts for bash.
_walbryts() {
    local word=${COMP_WORDS[COMP_CWORD]} before=${COMP_WORDS[COMP_CWORD - 1]} command=${COMP_WORDS[1]}
    if [ "$COMP_CWORD" -eq 1 ]; then
        mapfile -t COMPREPLY < <(compgen -W "list check run compare extract explain verilog sheet --help --version" -- "$word")
        return
    fi
    case $before in
    --vcd | --save | --load | --init | --names | --expect)
        mapfile -t COMPREPLY < <(compgen -f -- "$word")
        return
        ;;
    --seed | --user | --allowance | --from | --to | --every | --only) return ;;
    esac
    local options=--verilog
    case $command in
    run)
        options="$options --wires --inputs --only --hex --binary --csv --from --to --every --last --expect"
        options="$options --seed --user --allowance --by-expressions --vcd --work --init --save --load --progress --any-order --names"
        ;;
    compare) options="$options --names" ;;
    extract) options="$options --dot --names" ;;
    explain) options="$options --names" ;;
    esac
    case $word in
    -*) mapfile -t COMPREPLY < <(compgen -W "$options" -- "$word") ;;
    *) mapfile -t COMPREPLY < <(compgen -f -- "$word") ;;
    esac
}
complete -o filenames -F _walbryts walbryts
