# Completion of abuf for bash. Written by tools/completions.py.

_abuf() {
    local cur=${COMP_WORDS[COMP_CWORD]} before=${COMP_WORDS[COMP_CWORD - 1]} command=${COMP_WORDS[1]} options= values= word
    COMPREPLY=()
    if [ "$COMP_CWORD" -eq 1 ]; then
        COMPREPLY=($(compgen -W "render pick demo sequence" -- "$cur"))
        return
    fi
    # An option and its value may be joined by =, which is a word of its own here.
    if [ "$cur" = = ]; then
        cur=
    elif [ "$before" = = ]; then
        before=${COMP_WORDS[COMP_CWORD - 2]}
    fi
    case $before in
        --size) values="320x240 640x480 1280x960 1920x1080" ;;
        --samples) values="1 2 4 8 16" ;;
        --threads) values="1 2 4 8 16 32 64" ;;
        --nodes) values="4194304 8388608" ;;
        --turn) values="1,0,0,0 0,0,1,0 1,0,-1,0 1,0,1,0 1,1,0,0 1,-1,0,0 8,2,-3,0 8,2,3,0" ;;
        --move) values="0,0,-4" ;;
        --focal) values="1 2" ;;
        --near) values="0.125 0.0625" ;;
        --background) values="0,0,0 1,1,1" ;;
        --maxval) values="255 65535" ;;
        --bands) values="2 4 8 16 32" ;;
    esac
    if [ -n "$values" ]; then
        COMPREPLY=($(compgen -W "$values" -- "$cur"))
        return
    fi
    case $command in
        render) options="--size --samples --threads --nodes --turn --move --focal --near --background --maxval --bands --peel" ;;
        pick) options="--size --samples --threads --nodes --turn --move --focal --near --background --maxval" ;;
        demo) options="--size --samples --threads --nodes --turn --move --focal --near --background --maxval" ;;
        sequence) options="--size --samples --threads --nodes --focal --near --background --maxval" ;;
    esac
    case $cur in
        -*)
            # Each option may be given once.
            for word in "${COMP_WORDS[@]:2}"; do
                [ "$word" = "$cur" ] || options=" $options " options=${options/ $word / }
            done
            COMPREPLY=($(compgen -W "$options" -- "$cur"))
            ;;
        *) [ "$command" = sequence ] && COMPREPLY=($(compgen -f -X '!*.path' -- "$cur") $(compgen -d -- "$cur")) ;;
    esac
}
complete -o filenames -F _abuf abuf
