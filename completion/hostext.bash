# Completes the words of hostext(1), hostext_publish(1), hostext_erofs(1) and the tools in bash. It needs nothing but bash 4 and awk; bash-completion reads it by itself
# where it is installed as share/bash-completion/completions/hostext, to which their names lead there, and otherwise a line `source` does.
#
# Names of a store and of a depot may have any byte that stands in a path, and bash breaks words at some of them. So the line is
# read here once more, and each reply is quoted as the word was begun.

# Cuts the line up to the cursor into `words`, without quotes, the last being the word that is completed. `shared` is how much of
# that one bash keeps as it stands, and `quote` the quote that is open in it. Variables and a tilde are replaced; nothing is run.
_hostext_split() {
    local line=${COMP_LINE:0:COMP_POINT} word='' begun='' before=0 char rest i
    words=() shared=0 quote=''
    for ((i = 0; i < ${#line}; i++)); do
        char=${line:i:1} rest=${line:i+1}
        case $quote$char in
            "''" | '""') quote='' shared=$before ;;
            "'"?) word+=$char ;;
            '"\') [[ $rest == [\"\\\$\`]* ]] && char=${rest:0:1} && ((i++)); word+=$char ;;
            '$' | '"$')
                begun=yes
                if [[ $rest =~ ^([A-Za-z_][A-Za-z0-9_]*) || $rest =~ ^\{([A-Za-z_][A-Za-z0-9_]*)\} ]]; then
                    word+=${!BASH_REMATCH[1]-} && ((i += ${#BASH_REMATCH[0]}))
                else
                    word+=$char
                fi
                ;;
            '"'?*) word+=$char ;;
            \' | \") quote=$char before=$shared shared=${#word} begun=yes ;;
            \\) word+=${rest:0:1} && begun=yes && ((++i)) ;;
            [[:blank:]])
                [[ -z $begun ]] || words+=("$word")
                word='' begun='' shared=0
                ;;
            [\;\|\&\(]) words=() word='' begun='' shared=0 ;;
            \~) [[ -z $begun && $rest == [/[:blank:]]* ]] && char=$HOME; word+=$char begun=yes ;;
            *)
                word+=$char begun=yes
                [[ $COMP_WORDBREAKS != *"$char"* ]] || shared=${#word}
                ;;
        esac
    done
    words+=("$word")
}

# Sets `quoted` to a text as it stands in the quote that is open, or with backslashes where none is.
_hostext_quote() {
    local special=$' \t"\'\\$`&|;()<>*?[]{}!#~^' i char
    [[ $quote != \" ]] || special='"\$`'
    quoted=''
    if [[ $quote == \' ]]; then
        quoted=${1//\'/\'\\\'\'}
        return
    fi
    for ((i = 0; i < ${#1}; i++)); do
        char=${1:i:1}
        [[ $special != *"$char"* ]] || quoted+=\\
        quoted+=$char
    done
}

# Replies those of the texts that begin with the word. A control byte can't be quoted in a way that readline leaves alone: a newline
# would end the line, and what is after it would be run.
_hostext_reply() {
    local word=${words[-1]} text quoted
    for text; do
        [[ $text == "$word"* && $text != *[[:cntrl:]]* ]] || continue
        _hostext_quote "${text:shared}"
        COMPREPLY+=("$quoted")
    done
}

_hostext_option() {
    compopt "$@" 2>/dev/null
}

# Runs a command over the store of the line, which takes no lock, by the program hostext beside the others. It ends by
# itself where STORE is no store.
_hostext_run() {
    [[ -d ${words[1]} ]] || return
    local limit=() program=${words[0]%_publish}
    ! command -v timeout >/dev/null || limit=(timeout 5)
    HOSTEXT_LOCK=no "${limit[@]}" "${program%_erofs}" "${words[1]}" "${words[2]}" "$@" </dev/null 2>/dev/null
}

# Writes the entries of the store's directory at a path: of each its kind and its name.
_hostext_entries() {
    _hostext_run tree "${1:-/}" | LC_ALL=C awk '
        { name = $0 }
        /^[do] / { sub(/^[do] [0-9:]+ /, "", name) }
        /^f / { sub(/^f [0-9:]+ [0-9]+ [0-9a-f]+ /, "", name) }
        /^l / { sub(/^l [0-9:]+ /, "", name); name = substr(name, $2 + 2) }
        /^[dofl] / && name !~ /\// { print ($1 == "o" ? "d" : $1), name }'
}

# Replies the paths of the store that are of one of the kinds. A directory is also the way to what is in it. No path ends in a slash.
_hostext_paths() {
    local folder=${words[-1]%/*} line kind name
    [[ $folder != */ ]] || return
    while IFS= read -r line; do
        kind=${line%% *} name=${line#* }
        case $kind in
            d) _hostext_reply "$folder/$name" ;;
            *) [[ $1 != *"$kind"* ]] || _hostext_reply "$folder/$name" ;;
        esac
        [[ $kind != d || $folder/$name != "${words[-1]}"* ]] || _hostext_option -o nospace
    done < <(_hostext_entries "$folder")
}

# Replies the resources of the depot, and folders on the way to some.
_hostext_resources() {
    local depot=${words[2]} folder='' path name
    [[ ${words[-1]} != */* ]] || folder=${words[-1]%/*}/
    for path in "$depot/$folder"*; do
        name=${path##*/}
        if [[ $name == ?*.tree && -f $path ]]; then
            _hostext_reply "$folder${name%.tree}"
        elif [[ -d $path && ! -f $path.tree ]]; then
            _hostext_reply "$folder$name/"
            [[ $folder$name/ != "${words[-1]}"* ]] || _hostext_option -o nospace
        fi
    done
}

_hostext_components() {
    local name
    while IFS= read -r name; do
        _hostext_reply "--component=$name"
    done < <(_hostext_run sysupdate components | tail -n +2)
}

# Replies the versions that are available and not installed.
_hostext_versions() {
    local line
    while IFS= read -r line; do
        [[ $line != *' available'* || $line == *' installed'* ]] || _hostext_reply "${line%% *}"
    done < <(_hostext_run sysupdate "$@" list)
}

_hostext_updates() {
    local option=()
    [[ ${words[4]} != --component=* ]] || option=("${words[4]}")
    if ((${#words[@]} == 6 + ${#option[@]})); then
        [[ ${words[-2]} != update ]] || _hostext_versions "${option[@]}"
    elif ((${#words[@]} == 6)); then
        _hostext_reply list check-new update vacuum features
    elif ((${#option[@]})); then
        _hostext_components
    else
        _hostext_reply list check-new update vacuum features components --component=
        [[ ${words[4]} != -* ]] || _hostext_option -o nospace
    fi
}

# Replies what may follow the verb of a view.
_hostext_view() {
    case ${words[4]} in
        merge | refresh | changes) _hostext_reply --force ;;
        explain)
            _hostext_reply --force
            _hostext_paths dfl
            ;;
    esac
}

# Replies the marks of the store.
_hostext_marks() {
    local mark
    while IFS= read -r mark; do
        _hostext_reply "${mark%% *}"
    done < <(_hostext_run history)
}

# Replies the names of images of portable services in one of the states, with no path before them.
_hostext_services() {
    local line
    while IFS= read -r line; do
        [[ $line != [^-]*' image /'* || ${line##* } != $1 ]] || _hostext_reply "${line%% image /*}"
    done < <(_hostext_run portable list)
}

# Replies such names, and where the word begins with a slash paths of directories.
_hostext_service_or_path() {
    [[ ${words[-1]} == /* ]] && _hostext_paths d || _hostext_services "$1"
}

_hostext_profiles() {
    local folder line
    for folder in etc run usr/lib; do
        while IFS= read -r line; do
            [[ $line != [dl]' '* ]] || _hostext_reply "--profile=${line#? }"
        done < <(_hostext_entries "/$folder/systemd/portable/profile")
    done
}

_hostext_extensions() {
    local line
    while IFS= read -r line; do
        [[ $line != [^-]*' image /'* ]] || _hostext_reply "--extension=${line%% image /*}"
    done < <(_hostext_run sysext list)
}

# Replies the image that is to be attached, where none stands there yet, and the options that may come.
_hostext_attaching() {
    local word image='' said=' '
    for word in "${words[@]:5:${#words[@]}-6}"; do
        [[ $word == -* ]] && said+="${word%%=*} " || image=yes
    done
    case ${words[-1]} in
        --copy=*) _hostext_reply --copy={copy,symlink,auto,mixed} ;;
        --profile=*) _hostext_profiles ;;
        --extension=*) _hostext_extensions ;;
        *)
            [[ -n $image ]] || _hostext_service_or_path "$1"
            for word in --runtime --profile= --copy= --extension=; do
                [[ $word != --extension= && $said == *" ${word%=} "* ]] || _hostext_reply "$word"
            done
            [[ ${words[-1]} != -* || ${words[-1]} == --r* ]] || _hostext_option -o nospace
            ;;
    esac
}

_hostext_portable() {
    case ${words[4]}:${#words[@]} in
        inspect:6) _hostext_service_or_path '*' ;;
        is-attached:6) _hostext_services '*' ;;
        detach:6) _hostext_services 'attached*' ;;
        attach:*) _hostext_attaching detached ;;
        reattach:*) _hostext_attaching '*' ;;
    esac
}

# What may stand after a command, by how many words there are.
_hostext_arguments() {
    case ${words[3]}:${#words[@]} in
        init:5) _hostext_reply x86 x86-64 arm arm64 riscv64 s390x ppc64-le loongarch64 ;;
        init:6) _hostext_reply system initrd ;;
        import-fs:5) _hostext_resources ;;
        import-fs:6 | tree:5) _hostext_paths d ;;
        remove:5) _hostext_paths dfl ;;
        cat:5) _hostext_paths f ;;
        sysext:5 | confext:5) _hostext_reply list status merge unmerge refresh changes explain ;;
        sysext:6 | confext:6) _hostext_view ;;
        sysext:7 | confext:7) [[ ${words[4]} != explain || ${words[5]} != --force ]] || _hostext_paths dfl ;;
        history:5) _hostext_reply --changes ;;
        history:6) [[ ${words[4]} != --changes ]] || _hostext_marks ;;
        rollback:5 | forget:5) _hostext_marks ;;
        sysupdate:[567]) _hostext_updates ;;
        portable:5) _hostext_reply list inspect is-attached attach detach reattach ;;
        portable:*) _hostext_portable ;;
    esac
}

_hostext() {
    local words shared quote
    COMPREPLY=()
    _hostext_split
    case ${#words[@]} in
        2 | 3)
            _hostext_option -o filenames -o dirnames
            ((${#words[@]} == 3)) || [[ ${words[1]} != -* ]] || _hostext_reply --help --version
            ;;
        4) _hostext_reply init import-fs remove sysext confext sysupdate portable mark history rollback forget tree cat check migrate compare layer batch sample ;;
        *) _hostext_arguments ;;
    esac
}

# Replies the folders in the folder OUT, as words without a slash before them. Files of resources stand in some too.
_hostext_publish_folders() {
    local out=${words[2]} folder='' path
    [[ ${words[-1]} != */* ]] || folder=${words[-1]%/*}/
    for path in "$out/$folder"*/; do
        [[ -d $path && ! -f ${path%/}.tree ]] || continue
        path=${path%/}
        _hostext_reply "$folder${path##*/}"
    done
}

_hostext_publish() {
    local words shared quote
    COMPREPLY=()
    _hostext_split
    case ${#words[@]} in
        2 | 3)
            _hostext_option -o filenames -o dirnames
            ((${#words[@]} == 3)) || [[ ${words[1]} != -* ]] || _hostext_reply --help
            ;;
        4) _hostext_paths df ;;
        5) _hostext_publish_folders ;;
    esac
}

# Replies the options of the program that writes EROFS images, and after the first of them the marks of the store.
_hostext_erofs_options() {
    local mark
    if [[ ${words[-1]} == --mark=* ]]; then
        words=("${words[0]}" "${words[1]}" . "${words[-1]}")
        while IFS= read -r mark; do
            _hostext_reply "--mark=${mark%% *}"
        done < <(_hostext_run history)
        return
    fi
    [[ ${words[-2]} == --mark=* ]] || _hostext_reply --mark=
    _hostext_reply --time=
    _hostext_option -o nospace
}

_hostext_erofs() {
    local words shared quote
    COMPREPLY=()
    _hostext_split
    case ${#words[@]} in
        2)
            _hostext_option -o filenames -o dirnames
            [[ ${words[1]} != -* ]] || _hostext_reply --help --version
            ;;
        3) _hostext_erofs_options ;;
        4) [[ ${words[2]} != --mark=* || ${words[3]} == --mark=* ]] || _hostext_erofs_options ;;
    esac
}

# Replies the options of a tool. A value that one has is the next word.
_hostext_tool_options() {
    case $1 in
        activate) _hostext_reply --help ;;
        unpack) _hostext_reply --tar --erofs --squashfs --mtime --keep-setid --no-setid --quiet --help ;;
        image-from-packages) _hostext_reply --release --confext --root-owned --public --quiet --help ;;
        pack) _hostext_reply --format --image --layers --most-bytes --without --leave-out-special --usr-merge --keep-owners --root-owned --strict --public --quiet --help ;;
        fetch) _hostext_reply --keyring --allow-older --public --quiet --jobs --help ;;
        tend) _hostext_reply --root --help ;;
        tree-text) _hostext_reply --keep-owners --root-owned --quiet --help ;;
        update) _hostext_reply --help ;;
    esac
}

# Replies the options of a command that shows a generation, and the marks of the store after the one that names a mark.
_hostext_activate_options() {
    local mark
    if [[ ${words[-1]} == --mark=* ]]; then
        words=("${words[0]%-activate}" "${places[0]}" . "${words[-1]}")
        while IFS= read -r mark; do
            _hostext_reply "--mark=${mark%% *}"
        done < <(_hostext_run history)
        return
    fi
    case ${places[1]} in
        make) _hostext_reply --mark= && _hostext_reply --no-check ;;
        mount) _hostext_reply --mark= --path= && _hostext_reply --no-check --no-suid ;;
        switch) _hostext_reply --root= --mark= && _hostext_reply --confext --no-check --no-suid --even-without ;;
        back | boot) _hostext_reply --even-without ;;
        status) _hostext_reply --json ;;
    esac
    [[ ${COMPREPLY[*]} != *= ]] || _hostext_option -o nospace
}

# Completes the words of a tool, which tells by its name where something else than a path stands: at ABS of a store, and at RES of a
# depot that something is made in.
_hostext_tool() {
    local words shared quote tool word last='' places=()
    COMPREPLY=()
    _hostext_split
    tool=${words[0]##*hostext-}
    for word in "${words[@]:1:${#words[@]}-2}"; do
        [[ $last == --@(erofs|squashfs|mtime|release|format|image|most-bytes|without|keyring|jobs|root) || $word == -?* ]] || places+=("$word")
        last=$word
    done
    if [[ $last == --@(erofs|squashfs|release|without|keyring|root) ]]; then
        _hostext_option -o default
    elif [[ $last == --format ]]; then
        _hostext_reply folder tar layer oci docker deb squashfs erofs disk
    elif [[ $last == --@(mtime|image|most-bytes|jobs) ]]; then
        return
    elif [[ $tool == activate && ${words[-1]} == -* && ${#places[@]} -gt 1 ]]; then
        _hostext_activate_options
    elif [[ ${words[-1]} == -* ]]; then
        _hostext_tool_options "$tool"
    elif [[ $tool:${#places[@]} == activate:1 ]]; then
        _hostext_reply make mount umount switch back off status boot
    elif [[ $tool == activate && ${#places[@]} -gt 1 ]]; then
        [[ ${places[1]} != @(mount|umount) || ${#places[@]} -gt 2 ]] || _hostext_option -o dirnames
    elif [[ $tool:${#places[@]} == unpack:1 ]]; then
        words=("${words[0]%-unpack}" "${places[0]}" . "${words[-1]}")
        _hostext_paths d
    elif [[ $tool:${#places[@]} == tend:1 ]]; then
        _hostext_reply settings fetch update switch health
    elif [[ $tool:${#places[@]} == @(image-from-packages:1|pack:2) ]]; then
        words=("${words[0]}" . "${places[-1]}" "${words[-1]}")
        _hostext_publish_folders
    else
        _hostext_option -o default
    fi
}

complete -F _hostext hostext
complete -F _hostext_publish hostext_publish
complete -F _hostext_erofs hostext_erofs
complete -F _hostext_tool hostext-{activate,unpack,image-from-packages,pack,fetch,tend,tree-text,update}
