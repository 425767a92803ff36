# Completes the words of zcrx in bash: `make install` puts it where bash-completion finds it, or source it.

_zcrx() {
    local word=${COMP_WORDS[COMP_CWORD]} before=${COMP_WORDS[COMP_CWORD - 1]}
    COMPREPLY=()
    if [ "$COMP_CWORD" -eq 1 ]; then
        COMPREPLY=($(compgen -W "replay make check" -- "$word"))
        return
    fi
    [ "${COMP_WORDS[1]}" = replay ] || return
    case $before in
    --buffers) COMPREPLY=($(compgen -W "64 256 1024 4096" -- "$word")) ;;
    --size) COMPREPLY=($(compgen -W "1024 2048 4096 8192 16384 32768 65536" -- "$word")) ;;
    --areas) COMPREPLY=($(compgen -W "256:2048,16:65536 1024:1024,256:4096" -- "$word")) ;;
    --ring) COMPREPLY=($(compgen -W "1 64 256" -- "$word")) ;;
    --split) COMPREPLY=($(compgen -W "0 64 128 256" -- "$word")) ;;
    --turns) COMPREPLY=($(compgen -W "n n0" -- "$word")) ;;
    --forward) COMPREPLY=($(compgen -W "0 8 63" -- "$word")) ;;
    --hold | --leak | --stray | --quit) ;;
    *) COMPREPLY=($(compgen -W "--buffers --size --areas --ring --split --hold --leak --stray --quit --turns --events --polled --forward" -- "$word")) ;;
    esac
}

complete -F _zcrx zcrx
