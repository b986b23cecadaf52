# shellcheck shell=sh
# The refusals in words. To be sourced.

# what refusal NUMBER with DETAIL says of a task file, a horizon or a solver's output
refusal_in_words() {
    case "$1 $2" in
        '1 '*) echo "it has under 16 or over 17,808 bytes" ;;
        '2 3') echo "row 3 of its contents does not start where row 2 ends, or its end is not the file's" ;;
        '2 '*) echo "row $2 of its contents does not start where it must" ;;
        '3 '*) echo "it has not 1 to 96 variables, not as many start values, or a goal of a length that is odd or over 192" ;;
        '4 '*) echo "variable $2 has not 1 to 64 values, or, where there is no variable $2, all together have over 1,024" ;;
        '5 '*) echo "the start value of variable $2 is outside its domain" ;;
        '6 '*) echo "goal pair $2 is outside its domain, or not above the one before" ;;
        '7 512') echo "it has over 512 actions" ;;
        '7 '*) echo "action $2 is cut short, has a list over 8, or a pair outside its domain or not rising" ;;
        '8 '*) echo "the horizon is over 64" ;;
        '11 4096') echo "a line has over 4,096 bytes, or is against the grammar at byte 4,096" ;;
        '11 '*) echo "a line is against the grammar at byte $2" ;;
        '12 '*) echo "a line or number is out of place at byte $2 of its line" ;;
        '13 '*) echo "a variable that the formula has not, at byte $2 of its line" ;;
        '14 '*) echo "a variable is given twice, at byte $2 of its line" ;;
        '15 '*) echo "it stops without a status, or before the model is closed" ;;
        '17 '*) echo "clause $2 has no true literal among those named" ;;
        '18 '*) echo "it says UNSATISFIABLE" ;;
        '19 '*) echo "it says UNKNOWN" ;;
        *) echo "this refusal has no words here" ;;
    esac
}

# what refusal NUMBER with DETAIL says of a translator's text; what has no words of its own here is said as of a task file
text_refusal_in_words() {
    case "$1 $2" in
        '3 '*) echo "it has not 1 to 96 variables, or has over 96 goal pairs" ;;
        '6 '*) echo "goal pair $2, in rising order of variable, is outside its domain, or names a variable again" ;;
        '7 512') echo "it has over 512 operators" ;;
        '7 '*) echo "operator $2 has over 8 preconditions or effects, a pair outside its domain, or a variable twice among either" ;;
        '30 '*) echo "line $2 is against the format, or the text stops before it" ;;
        '31 '*) echo "line $2 has an axiom layer other than -1, axioms, or conditions of an effect" ;;
        '32 '*) echo "line $2 has another version of the format than 3" ;;
        *) refusal_in_words "$1" "$2" ;;
    esac
}
