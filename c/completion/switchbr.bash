# Completion of switchbr for bash.
_switchbr() {
	local word=${COMP_WORDS[COMP_CWORD]} command=${COMP_WORDS[1]}
	case $COMP_CWORD:$command in
	1:*) COMPREPLY=($(compgen -W "audit check demo follow gen live monitor querier replay show" -- "$word")) ;;
	2:show) COMPREPLY=($(compgen -W "fdb mdb vlan" -- "$word")) ;;
	2:live) COMPREPLY=($(compgen -W "--workers" -- "$word")) ;;
	3:live) COMPREPLY=($(compgen -W "$(echo {1..16})" -- "$word")) ;;
	*) COMPREPLY=() ;;
	esac
}
# what is read comes by `<`, so files complete behind it as usual
complete -o default -F _switchbr switchbr
