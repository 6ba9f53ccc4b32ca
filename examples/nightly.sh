# Checks a backup, and prints what is wrong. usage: bash nightly.sh LOG BACKUP
PATH=/usr/local/bin:$PATH nice bsonkit audit --quiet --expect "$1" "$2"
