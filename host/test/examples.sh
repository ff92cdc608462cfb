# The C examples of the documents, for host/test.sh and host/test/documents.sh, which source this.

# Puts each C example of a document into a folder, as the file that its first line names; one whose
# first line names none is nameless-1.c, and so on.
examples() { # DOCUMENT FOLDER
    awk -v folder="$2" '
        /^```c$/ {
            code = 1
            file = ""
            next
        }
        /^```$/ && code {
            code = 0
            close(file)
        }
        code && file == "" {
            file = folder "/nameless-" ++nameless ".c"
            if (match($0, /^\/\* [a-z_]+\.c: /))
                file = folder "/" substr($0, 4, RLENGTH - 5)
        }
        code { print >file }' "$1"
}
