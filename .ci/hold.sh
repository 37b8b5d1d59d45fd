# Sourced by the tests here: `hold` counts what is as it should be and says what is not, `held` ends with 'N passed, M failed'.
export LC_ALL=C
passed=0
failed=0

hold() {
    if [ "$2" = "$3" ]; then
        passed=$((passed + 1))
    else
        failed=$((failed + 1))
        printf '%s: it is\n%.2000s\nand not\n%.2000s\n' "$1" "$2" "$3"
    fi
}

held() {
    echo "$passed passed, $failed failed"
    [ "$failed" -eq 0 ]
}
