# Completion of bsonwide in bash.

# The files whose names begin with the word, all or those that end so, and directories.
_bsonwide_files() {
	local ending=$1 word=$2 name
	compopt -o filenames 2>/dev/null
	while IFS= read -r name; do
		if [[ -d $name || $name == *"$ending" ]]; then
			COMPREPLY+=("$name")
		fi
	done < <(compgen -f -- "$word")
}

# The same, and the hyphen of the standard input.
_bsonwide_inputs() {
	local ending=$1 word=$2
	_bsonwide_files "$ending" "$word"
	if [[ -z $word || $word == - ]]; then
		COMPREPLY+=(-)
	fi
}

# Those of these options that the line has not, and a file where it has none; of the values of options only types,
# formats and files.
_bsonwide_options() {
	local word=$1 options=$2 option='' is_file_there='' at=2
	while ((at < COMP_CWORD)); do
		case ${COMP_WORDS[at]} in
		--query | --queryFile | --sort | --skip | --limit | --batch | --index | --after | --type | --jsonFormat | --fields)
			option=${COMP_WORDS[at]}
			options=${options/ $option / }
			case $option in
			--batch) options=${options/ --count / } ;;
			--query) options=${options/ --queryFile / } ;;
			--queryFile) options=${options/ --query / } ;;
			--type | --jsonFormat | --fields)
				options=${options/ --bson / }
				options=${options/ --count / }
				;;
			esac
			((at += 1))
			if [[ ${COMP_WORDS[at]} == = ]]; then
				((at += 1))
			fi
			;;
		--byValue) options=${options/ --byValue / } ;;
		--jsonArray | --pretty | --noId | --noHeaderLine)
			options=${options/ ${COMP_WORDS[at]} / }
			options=${options/ --bson / }
			options=${options/ --count / }
			;;
		--bson | --count)
			for option in bson count type jsonFormat jsonArray pretty fields noId noHeaderLine; do
				options=${options/ --$option / }
			done
			if [[ ${COMP_WORDS[at]} == --count ]]; then
				options=${options/ --batch / }
			fi
			;;
		--) options='' ;;
		*) is_file_there=1 ;;
		esac
		((at += 1))
	done
	if ((at > COMP_CWORD)); then
		case $option in
		--type) mapfile -t COMPREPLY < <(compgen -W "json csv" -- "${word#=}") ;;
		--jsonFormat) mapfile -t COMPREPLY < <(compgen -W "canonical relaxed" -- "${word#=}") ;;
		--queryFile) _bsonwide_inputs '' "${word#=}" ;;
		esac
		return
	fi
	if [[ -z $is_file_there ]]; then
		if [[ ${COMP_WORDS[1]} == serve ]]; then
			_bsonwide_files .bson "$word" # the commands come from standard input
		else
			_bsonwide_inputs .bson "$word"
		fi
	fi
	if [[ -z $word || $word == -* ]]; then
		while IFS= read -r option; do
			COMPREPLY+=("$option")
		done < <(compgen -W "$options" -- "$word")
	fi
}

_bsonwide() {
	local word=${COMP_WORDS[COMP_CWORD]} command=${COMP_WORDS[1]} before=${COMP_WORDS[COMP_CWORD - 1]} options
	COMPREPLY=()
	if ((COMP_CWORD == 1)); then
		mapfile -t COMPREPLY < <(compgen -W 'dump check pack find serve --help' -- "$word")
		return
	fi
	case $command in
	dump) options=' --type --jsonFormat --jsonArray --pretty --fields --noId --noHeaderLine ' ;;
	serve) options=' --byValue ' ;;
	find) options=' --query --queryFile --sort --skip --limit --batch --index --after --type --jsonFormat --jsonArray --pretty --fields --noId --noHeaderLine --bson --count ' ;;
	esac
	if [[ -n $options ]]; then
		_bsonwide_options "$word" "$options"
		return
	fi
	# One file, maybe after two hyphens; only commands with options have more words.
	[[ $COMP_CWORD == 2 || "$COMP_CWORD $before" == '3 --' ]] || return
	case $command in
	check) _bsonwide_inputs .bson "$word" ;;
	pack) _bsonwide_inputs '' "$word" ;;
	esac
}

complete -F _bsonwide bsonwide
