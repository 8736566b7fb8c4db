# What the codes of errors mean.

# A few words on what a code means.
print_cause() {
  case $1 in
    XPST0003) echo "here the text is no query" ;;
    XPST0008) echo "no variable of this name can be read here" ;;
    XPST0017) echo "there is no function of this name with so many arguments" ;;
    XPST0051) echo "there is no type of this name, or it may not stand here" ;;
    XQST0034) echo "a function of this name and number of arguments is there already" ;;
    XQST0039) echo "the function has a parameter of this name already" ;;
    XQST0049) echo "a variable of this name is declared already" ;;
    XQST0089) echo "the position needs a name that differs from its variable's" ;;
    XQST0094) echo "the grouping key is no variable of these clauses" ;;
    XPDY0002) echo "there is no context item here" ;;
    XPDY0050) echo "the value is not of the type that it is to be treated as" ;;
    XPTY0004) echo "a value of the wrong type, or too many or too few items" ;;
    FOAR0001) echo "a division by zero" ;;
    FOAR0002) echo "the result is too large a number" ;;
    FORG0001) echo "the value cannot be cast to this type" ;;
    FORG0003) echo "more than one item, where one or none is wanted" ;;
    FORG0004) echo "no item, where one or more are wanted" ;;
    FORG0005) echo "exactly one item is wanted" ;;
    FORG0006) echo "the value is neither true nor false, or cannot be added up or compared" ;;
    FOER0000) echo "the query called error()" ;;
    FODC0002) echo "there is no input of this name" ;;
    JNDY0003) echo "the object has one key twice" ;;
    JNDY0021) echo "the text is no JSON" ;;
    JNTY0004) echo "an object or an array, where a single value is wanted" ;;
    JNTY0018) echo "the key of a look-up is one string or number" ;;
    PJST0001) echo "this form of the language is left out here" ;;
    PJST0002) echo "json-lines takes 1 to 64 names, as literal strings" ;;
    PJST0003) echo "more than 100 forms stand inside one another" ;;
    PJST0004) echo "the number is too large" ;;
    PJST0005) echo "the query is longer than 1 MiB" ;;
    PJST0006) echo "the import leads back to a file that imports it" ;;
    PJST0007) echo "there is no library of this name" ;;
    PJST0008) echo "more than 64 files with this import" ;;
    PJST0009) echo "the body of a library is ()" ;;
    PJDY0001) echo "calls and expressions are more than 1,000 deep" ;;
    PJDY0002) echo "arrays and objects are more than 128 deep" ;;
    PJDY0003) echo "the range has more than 10,000,000 items" ;;
    PJDY0004) echo "a number of the input is too large" ;;
  esac
}
