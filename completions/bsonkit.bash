# Completion of bsonkit in bash.

# Files whose names begin with the word, and directories; after two colons nothing is known.
_bsonkit_files() {
	compopt -o filenames 2>/dev/null
	mapfile -t COMPREPLY < <(compgen -f -- "$1")
}

_bsonkit() {
	local word=${COMP_WORDS[COMP_CWORD]} command=${COMP_WORDS[1]} before=${COMP_WORDS[COMP_CWORD - 1]} options
	COMPREPLY=()
	if ((COMP_CWORD == 1)); then
		mapfile -t COMPREPLY < <(compgen -W 'check dump pack find serve audit salvage show unpack compare query count schema info grep ids --help --version' -- "$word")
		return
	fi
	case $before in
	--type | --jsonFormat)
		mapfile -t COMPREPLY < <(compgen -W "$([[ $before == --type ]] && echo json csv || echo canonical relaxed)" -- "$word")
		return
		;;
	-q | --query | -f | --sort | --index | --after | --skip | --limit | --batch | --jobs | --max-faults | --fields | --by | --sum | --sample | --only | --regex | --timeout) return ;;
	esac
	if [[ $word != -* ]]; then
		_bsonkit_files "$word"
		return
	fi
	case $command in
	dump) options='--type --jsonFormat --fields --noId --jsonArray --pretty --noHeaderLine --outFile' ;;
	pack) options='--outFile' ;;
	find) options='--query --queryFile --sort --index --after --skip --limit --batch --type --jsonFormat --fields --noId --jsonArray --pretty --noHeaderLine --bson --count --outFile' ;;
	serve) options='--byValue' ;;
	audit) options='--list --expect --ids --json --quiet --jobs --max-faults' ;;
	salvage) options='--good --bad --out' ;;
	show) options='--bson' ;;
	unpack) options='--only --no-crc' ;;
	compare) options='--by' ;;
	query) options='--list --query --queryFile --limit --outFile --jobs' ;;
	count) options='--query --queryFile --by --sum --json' ;;
	schema) options='--sample --json' ;;
	info) options='--list --json --jobs' ;;
	grep) options='--list --regex --ignore-case --timeout --count --json --jobs' ;;
	ids) options='--ids --missing --bson' ;;
	*) options='' ;;
	esac
	mapfile -t COMPREPLY < <(compgen -W "$options --program --version --help" -- "$word")
}

complete -F _bsonkit bsonkit
