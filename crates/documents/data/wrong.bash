# Deliberate mistakes: no command `format`, a command `walk`, no `run --dot`, and an option `follow --watch`.
    local commands="run follow replay check graph sql encode decode kinds explain help walk"
        run) words="--workers --watch --stats --end-mark --schema --dictionary --output --explain --inline --help" ;;
        follow) words="--workers --watch --first-epoch --end-mark --schema --dictionary --output --explain --inline --help" ;;
        replay) words="--workers --views --explain --inline --help" ;;
        check) words="--heap --schema --explain --inline --help" ;;
        graph) words="--dot --heap --explain --inline --help" ;;
        format) words="--explain --inline --help" ;;
        sql) words="--with --wrapped --epochs --dialect --output --explain --inline --help" ;;
        encode) words="--dictionary --end-mark --help" ;;
        decode) words="--dictionary --output --help" ;;
