# Completion of bsonwide in fish.

# Whether the command of the line is one of these.
function __bsonwide_command
    set -l words (commandline -opc)
    test (count $words) -gt 1; and contains -- $words[2] $argv
end

# The same, and a file may stand here: there is none, and this is no value of an option.
function __bsonwide_needs_file
    __bsonwide_command $argv; or return
    set -l words (commandline -opc)
    set -l is_value 0
    for word in $words[3..]
        if test $is_value = 1
            set is_value 0
        else if contains -- $word --query --queryFile --sort --skip --limit --batch --index --after --type --jsonFormat --fields
            set is_value 1
        else if not string match -q -- '--*' $word
            return 1
        end
    end
    test $is_value = 0
end

# Whether it is the first of these, a command, without the second, an option.
function __bsonwide_needs
    __bsonwide_command $argv[1]; and not string match -q -r -- "^--$argv[2](=|\$)" (commandline -opc)
end

# Whether it is `dump` or `find` without this option, and without `--bson` and `--count`.
function __bsonwide_lays_out
    contains -- (commandline -opc)[2] dump find; or return
    __bsonwide_needs (commandline -opc)[2] $argv[1]
    and not string match -q -r -- '^--(bson|count)$' (commandline -opc)
end

# Whether no option of a layout is there.
function __bsonwide_no_layout
    not string match -q -r -- '^--(type|jsonFormat|jsonArray|pretty|fields|noId|noHeaderLine)(=|$)' (commandline -opc)
end

complete -c bsonwide -f
complete -c bsonwide -n 'not __bsonwide_command dump check pack find serve' -a dump -d 'print each document as a line'
complete -c bsonwide -n 'not __bsonwide_command dump check pack find serve' -a check -d 'tell the first fault of each document'
complete -c bsonwide -n 'not __bsonwide_command dump check pack find serve' -a pack -d 'turn lines of Extended JSON into a dump'
complete -c bsonwide -n 'not __bsonwide_command dump check pack find serve' -a find -d 'print the documents that answer a query, in an order'
complete -c bsonwide -n 'not __bsonwide_command dump check pack find serve' -a serve -d 'answer the commands of standard input over a dump'
complete -c bsonwide -n 'not __bsonwide_command dump check pack find serve' -s h -l help -d 'print the usage'
complete -c bsonwide -n '__bsonwide_needs_file dump check pack find' -a - -d 'standard input'
complete -c bsonwide -n '__bsonwide_needs_file dump check find serve' -k -a '(__fish_complete_suffix .bson)'
complete -c bsonwide -n '__bsonwide_needs_file pack' -F
complete -c bsonwide -n '__bsonwide_lays_out type' -l type -x -a 'json csv' -d 'print JSON or CSV'
complete -c bsonwide -n '__bsonwide_lays_out jsonFormat' -l jsonFormat -x -a 'canonical relaxed' -d 'how numbers and dates are printed'
complete -c bsonwide -n '__bsonwide_lays_out jsonArray' -l jsonArray -d 'print one array'
complete -c bsonwide -n '__bsonwide_lays_out pretty' -l pretty -d 'print many lines for each document'
complete -c bsonwide -n '__bsonwide_lays_out fields' -l fields -x -d 'print these fields alone, as name,address.city'
complete -c bsonwide -n '__bsonwide_lays_out noId' -l noId -d 'leave out _id'
complete -c bsonwide -n '__bsonwide_lays_out noHeaderLine' -l noHeaderLine -d 'leave out the header of CSV'
complete -c bsonwide -n 'test (commandline -opc)[-1] = --type' -a 'json csv'
complete -c bsonwide -n 'test (commandline -opc)[-1] = --jsonFormat' -a 'canonical relaxed'
complete -c bsonwide -n '__bsonwide_needs serve byValue' -l byValue -d 'read doubles and decimal128 over any dump'
complete -c bsonwide -n '__bsonwide_needs find query; and __bsonwide_needs find queryFile' -l query -x -d 'the query, as {"age":{"$gte":18}}'
complete -c bsonwide -n '__bsonwide_needs find query; and __bsonwide_needs find queryFile' -l queryFile -r -F -d 'the file of the query'
complete -c bsonwide -n 'test (commandline -opc)[-1] = --queryFile' -F
complete -c bsonwide -n 'test (commandline -opc)[-1] = --queryFile' -a - -d 'standard input'
complete -c bsonwide -n '__bsonwide_needs find sort' -l sort -x -d 'the sort, as {"age":-1}'
complete -c bsonwide -n '__bsonwide_needs find skip' -l skip -x -d 'pass over N documents'
complete -c bsonwide -n '__bsonwide_needs find limit' -l limit -x -d 'at most N documents'
complete -c bsonwide -n '__bsonwide_needs find batch; and __bsonwide_needs find count' -l batch -x -d 'the next N documents'
complete -c bsonwide -n '__bsonwide_needs find index' -l index -x -d 'find by an index on the path, as address.city'
complete -c bsonwide -n '__bsonwide_needs find after' -l after -x -d 'go on after a token'
complete -c bsonwide -n '__bsonwide_needs find bson; and __bsonwide_needs find count; and __bsonwide_no_layout' -l bson -d 'print bytes'
complete -c bsonwide -n '__bsonwide_needs find count; and __bsonwide_needs find bson; and __bsonwide_needs find batch; and __bsonwide_no_layout' -l count -d 'print how many'
