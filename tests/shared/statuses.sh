# shellcheck shell=sh
# What the tests share that compare the answers of transfer_app: sourced, not run.

# The exit code of the status $1.
code_of() {
    case $1 in
        Done) echo 0 ;;
        Usage) echo 2 ;;
        ReadFault) echo 3 ;;
        WriteFault) echo 4 ;;
        InputTooLong) echo 5 ;;
        InputMalformed) echo 6 ;;
        Memory) echo 7 ;;
        Malformed) echo 10 ;;
        Unsupported) echo 11 ;;
        MacMissing) echo 12 ;;
        MacUnsupported) echo 13 ;;
        ZeroIterations) echo 14 ;;
        WorkLimit) echo 15 ;;
        MacMismatch) echo 16 ;;
        ContentMalformed) echo 17 ;;
        DecryptFailed) echo 18 ;;
        KeyMalformed) echo 19 ;;
        Rng) echo 20 ;;
        TooLong) echo 21 ;;
        *) echo none ;;
    esac
}
