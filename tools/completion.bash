# Completes the words of a call of nand in bash:
#
#   source tools/completion.bash
#
# Commands, their options, the words of --level and --show, and the names of the shipped chips; else files and folders, of which those
# come first that the command reads.
_nand_chips="Nand Not And Or Xor Mux DMux Not16 And16 Or16 Mux16 Or8Way Mux4Way16 Mux8Way16 DMux4Way DMux8Way
    HalfAdder FullAdder Add16 Inc16 ALU Shift DFF Bit Register RAM8 RAM64 RAM512 RAM4K RAM16K PC
    ROM32K Screen Keyboard ARegister DRegister Memory CPU Computer"

_nand() {
    local command=${COMP_WORDS[1]} word=${COMP_WORDS[COMP_CWORD]} before=${COMP_WORDS[COMP_CWORD - 1]} words="" ending
    # bash takes `=` as a word of its own: --level=jack is three words
    [ "$word" = "=" ] && word=""
    [ "$before" = "=" ] && before=${COMP_WORDS[COMP_CWORD - 2]}
    COMPREPLY=()
    if [ "$COMP_CWORD" -eq 1 ]; then
        mapfile -t COMPREPLY < <(compgen -W "asm exec vm run compile build map chip test show soak debug" -- "$word")
        return
    fi
    case $before in
    --level) words="jack vm hack gates" ;;
    --show) words="none heap screen nets" ;;
    --format) words="1 2" ;;
    --cycles | --from | --to | --break) return ;;
    esac
    if [ -z "$words" ] && [[ $word == -* ]]; then
        case $command in
        exec) words="--cycles --from --to" ;;
        run) words="--level --cycles --keys --show --replace --simplify" ;;
        vm) words="--bare" ;;
        map) words="--format --replace" ;;
        compile | build) words="--replace" ;;
        test) words="--gates --simplify" ;;
        debug) words="--break --cycles --keys --replace" ;;
        esac
        [ -z "$words" ] && return
    fi
    [ "$command" = chip ] && words=$_nand_chips
    if [ -n "$words" ]; then
        mapfile -t COMPREPLY < <(compgen -W "$words" -- "$word")
        return
    fi
    case $command in
    asm) ending="asm" ;;
    exec) ending="asm|hack" ;;
    test) ending="tst" ;;
    show) ending="jack|vm|hdl" ;;
    *) ending="" ;;
    esac
    [ "$before" = --keys ] && ending="*"
    compopt -o filenames 2> /dev/null
    mapfile -t COMPREPLY < <(compgen -d -- "$word")
    [ -z "$ending" ] && return
    local file
    while IFS= read -r file; do
        [[ -d $file ]] || { [ "$ending" != "*" ] && [[ ! $file =~ \.($ending)$ ]]; } || COMPREPLY+=("$file")
    done < <(compgen -f -- "$word")
}
complete -F _nand nand
