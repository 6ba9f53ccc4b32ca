# Completion of bsonfind in fish.

# Whether the command of the line is one of these.
function __bsonfind_command
    set -l words (commandline -opc)
    test (count $words) -gt 1; and contains -- $words[2] $argv
end

# The same, and a file may stand here: there is none, and this is no value of an option.
function __bsonfind_wants_file
    __bsonfind_command $argv; or return
    set -l words (commandline -opc)
    set -l is_value 0
    for word in $words[3..]
        if test $is_value = 1
            set is_value 0
        else if contains -- $word --query --sort --skip --limit --batch --index --after
            set is_value 1
        else if not string match -q -- '--*' $word
            return 1
        end
    end
    test $is_value = 0
end

# Whether it is find, without this option.
function __bsonfind_wants
    __bsonfind_command find; and not string match -q -r -- "^--$argv(=|\$)" (commandline -opc)
end

complete -c bsonfind -f
complete -c bsonfind -n 'not __bsonfind_command dump check pack find serve' -a dump -d 'print each document as a line'
complete -c bsonfind -n 'not __bsonfind_command dump check pack find serve' -a check -d 'tell the first fault of each document'
complete -c bsonfind -n 'not __bsonfind_command dump check pack find serve' -a pack -d 'turn lines of Extended JSON into a dump'
complete -c bsonfind -n 'not __bsonfind_command dump check pack find serve' -a find -d 'print the documents that answer a query, in an order'
complete -c bsonfind -n 'not __bsonfind_command dump check pack find serve' -a serve -d 'answer the commands of standard input over a dump'
complete -c bsonfind -n 'not __bsonfind_command dump check pack find serve' -s h -l help -d 'print the usage'
complete -c bsonfind -n '__bsonfind_wants_file dump check pack find' -a - -d 'standard input'
complete -c bsonfind -n '__bsonfind_wants_file dump check find serve' -k -a '(__fish_complete_suffix .bson)'
complete -c bsonfind -n '__bsonfind_wants_file pack' -F
complete -c bsonfind -n '__bsonfind_wants query' -l query -x -d 'the query, as {"age":{"$gte":18}}'
complete -c bsonfind -n '__bsonfind_wants sort' -l sort -x -d 'the sort, as {"age":-1}'
complete -c bsonfind -n '__bsonfind_wants skip' -l skip -x -d 'pass over N documents'
complete -c bsonfind -n '__bsonfind_wants limit' -l limit -x -d 'at most N documents'
complete -c bsonfind -n '__bsonfind_wants batch' -l batch -x -d 'the next N documents'
complete -c bsonfind -n '__bsonfind_wants index' -l index -x -d 'find by an index on the path, as address.city'
complete -c bsonfind -n '__bsonfind_wants after' -l after -x -d 'go on after a token'
