# CIL texts to measure by. Usage: awk -v kind=KIND -v n=N [-v m=M] -f bench/cil.awk
# Each text is a program that gcc takes too, and ends with a status that its run decides:
#   arithmetic  n turns of a linear congruential generator
#   sieve       the primes below n
#   list        n nodes of malloc, linked, walked 8 times and given back
#   calls       a recursive function that is called about 1.6 ^ n times
#   output      n lines on standard output
#   room        an object of n bytes of malloc, all of which are set
#   deep        n activations of a function, each within the one before
#   forever     a loop without an end
#   wide        n turns through a switch of m cases, each of which ends with a jump
#   text        n parts, each an enum, a struct, a union, globals, an image and functions with every statement: a long text
function line(text) {
    print substr("                                        ", 1, 2 * depth - 2 * (text ~ /^}/)) text
    opened = gsub(/{/, "{", text)
    closed = gsub(/}/, "}", text)
    depth += opened - closed
}
function until(test) {
    line("if ( ( ! " test " ) ) {")
    line("break ;")
    line("} else {")
    line("}")
}
# main up to the middle of a turn of a linear congruential generator, and what follows.
function begin_turns() {
    line("int main ( void ) ;")
    line("int main ( void ) {")
    line("unsigned long i ;")
    line("unsigned int h ;")
    line("i = 0UL ;")
    line("h = 1U ;")
    line("while ( 1 ) {")
    until("( i < " n "UL )")
    line("h = ( ( h * 1103515245U ) + 12345U ) ;")
}
function end_turns() {
    line("i = ( i + 1UL ) ;")
    line("}")
    line("return ( ( int ) ( ( h / 65536U ) % 128U ) ) ;")
    line("}")
}
function arithmetic() {
    begin_turns()
    end_turns()
}
function wide(    k) {
    begin_turns()
    line("switch ( ( ( int ) ( ( h / 65536U ) % " m "U ) ) ) {")
    for (k = m - 1; k >= 0; k--) {
        line("case " k " : ;")
        line("h = ( h + " k "U ) ;")
        line("goto on ;")
    }
    line("}")
    line("on : ;")
    end_turns()
}
function sieve() {
    line("static unsigned char composite [ " n " ] ;")
    line("int main ( void ) ;")
    line("int main ( void ) {")
    line("long i ;")
    line("long j ;")
    line("int count ;")
    line("i = 2L ;")
    line("count = 0 ;")
    line("while ( 1 ) {")
    until("( i < " n "L )")
    line("if ( ( ! ( ( int ) composite [ i ] ) ) ) {")
    line("count = ( count + 1 ) ;")
    line("j = ( i + i ) ;")
    line("while ( 1 ) {")
    until("( j < " n "L )")
    line("composite [ j ] = ( ( unsigned char ) 1 ) ;")
    line("j = ( j + i ) ;")
    line("}")
    line("} else {")
    line("}")
    line("i = ( i + 1L ) ;")
    line("}")
    line("return ( count % 128 ) ;")
    line("}")
}
function list() {
    line("struct node ;")
    line("struct node {")
    line("struct node * next ;")
    line("long value ;")
    line("} ;")
    line("void * malloc ( unsigned long ) ;")
    line("void free ( void * ) ;")
    line("int main ( void ) ;")
    line("int main ( void ) {")
    line("struct node * first ;")
    line("struct node * at ;")
    line("void * room ;")
    line("long i ;")
    line("unsigned long sum ;")
    line("first = ( ( struct node * ) 0UL ) ;")
    line("i = 0L ;")
    line("while ( 1 ) {")
    until("( i < " n "L )")
    line("room = malloc ( 16UL ) ;")
    line("at = ( ( struct node * ) room ) ;")
    line("( * at ) . next = first ;")
    line("( * at ) . value = i ;")
    line("first = at ;")
    line("i = ( i + 1L ) ;")
    line("}")
    line("sum = 0UL ;")
    line("i = 0L ;")
    line("while ( 1 ) {")
    until("( i < 8L )")
    line("at = first ;")
    line("while ( 1 ) {")
    until("( at != ( ( struct node * ) 0UL ) )")
    line("sum = ( ( sum * 31UL ) + ( ( unsigned long ) ( * at ) . value ) ) ;")
    line("at = ( * at ) . next ;")
    line("}")
    line("i = ( i + 1L ) ;")
    line("}")
    line("while ( 1 ) {")
    until("( first != ( ( struct node * ) 0UL ) )")
    line("at = first ;")
    line("first = ( * at ) . next ;")
    line("free ( ( ( void * ) at ) ) ;")
    line("}")
    line("return ( ( int ) ( sum % 128UL ) ) ;")
    line("}")
}
function calls() {
    line("static int count ( int ) ;")
    line("int main ( void ) ;")
    line("static int count ( int m ) {")
    line("int one ;")
    line("int two ;")
    line("if ( ( m < 2 ) ) {")
    line("return 1 ;")
    line("} else {")
    line("}")
    line("one = count ( ( m - 1 ) ) ;")
    line("two = count ( ( m - 2 ) ) ;")
    line("return ( ( one + two ) % 1000007 ) ;")
    line("}")
    line("int main ( void ) {")
    line("int sum ;")
    line("sum = count ( " n " ) ;")
    line("return ( sum % 128 ) ;")
    line("}")
}
function output() {
    line("int putchar ( int ) ;")
    line("static char text [ 8 ] ;")
    line("int main ( void ) ;")
    line("static char text [ 8 ] = { [ 0 ] = 97 , [ 1 ] = 32 , [ 2 ] = 108 , [ 3 ] = 105 , [ 4 ] = 110 , [ 5 ] = 101 , [ 6 ] = 10 } ;")
    line("int main ( void ) {")
    line("long i ;")
    line("char * at ;")
    line("i = 0L ;")
    line("while ( 1 ) {")
    until("( i < " n "L )")
    line("at = text ;")
    line("while ( 1 ) {")
    until("( ( ( int ) ( * at ) ) != 0 )")
    line("putchar ( ( ( int ) ( * at ) ) ) ;")
    line("at = ( at + 1L ) ;")
    line("}")
    line("i = ( i + 1L ) ;")
    line("}")
    line("return 0 ;")
    line("}")
}
function room() {
    line("void * malloc ( unsigned long ) ;")
    line("void * __builtin_memset ( void * , int , unsigned long ) ;")
    line("int main ( void ) ;")
    line("int main ( void ) {")
    line("void * v ;")
    line("unsigned char * p ;")
    line("v = malloc ( " n "UL ) ;")
    line("v = __builtin_memset ( v , 7 , " n "UL ) ;")
    line("p = ( ( unsigned char * ) v ) ;")
    line("return ( ( int ) ( * ( p + ( " n "L - 1L ) ) ) ) ;")
    line("}")
}
function deep() {
    line("static int depth ( int ) ;")
    line("int main ( void ) ;")
    line("static int depth ( int m ) {")
    line("int below ;")
    line("if ( ( m == 0 ) ) {")
    line("return 0 ;")
    line("} else {")
    line("}")
    line("below = depth ( ( m - 1 ) ) ;")
    line("return ( below + 1 ) ;")
    line("}")
    line("int main ( void ) {")
    line("int n ;")
    line("n = depth ( " n " ) ;")
    line("return ( n % 128 ) ;")
    line("}")
}
function forever() {
    line("int main ( void ) ;")
    line("int main ( void ) {")
    line("while ( 1 ) {")
    line("}")
    line("}")
}
function part_of_text(k) {
    line("static int step_" k " ( struct pair_" k " * p , int m ) {")
    line("union mixed_" k " u ;")
    line("int i ;")
    line("__builtin_memset ( ( & u ) , 0 , 8UL ) ;")
    line("i = 0 ;")
    line("while ( 1 ) {")
    until("( i < m )")
    line("switch ( ( i % 4 ) ) {")
    line("case - 1 : ;")
    line("case 0 : ;")
    line("( * p ) . first = ( ( * p ) . first + ( ( long ) i ) ) ;")
    line("break ;")
    line("case 1 : ;")
    line("{")
    line("( * p ) . second [ ( i % 3 ) ] = ( ( short ) ( ( ( int ) ( * p ) . second [ 0 ] ) + 1 ) ) ;")
    line("}")
    line("break ;")
    line("default : ;")
    line("if ( ( ( ( unsigned int ) i ) > 7U ) ) {")
    line("goto done ;")
    line("} else {")
    line("total_" k " [ ( i & 3 ) ] = ( total_" k " [ 3 ] ^ ( ( unsigned long ) ( - ( ~ i ) ) ) ) ;")
    line("}")
    line("}")
    line("i = ( i + 1 ) ;")
    line("}")
    line("done : ;")
    line("u . number = ( ( * p ) . first >> 2 ) ;")
    line("return ( ( int ) u . bytes [ 0 ] ) ;")
    line("}")
}
function text(k) {
    for (k = 1; k <= n; k++) {
        line("enum color_" k " {")
        line("red_" k " = 0 ,")
        line("green_" k " = - " k " ,")
        line("blue_" k " = " k " ,")
        line("} ;")
    }
    for (k = 1; k <= n; k++) {
        line("struct pair_" k " ;")
        line("union mixed_" k " ;")
    }
    for (k = 1; k <= n; k++) {
        line("struct pair_" k " {")
        line("long first ;")
        line("short second [ 3 ] ;")
        line("struct pair_" k " * ( * next ) ( int , char * ( * ) [ 4 ] ) ;")
        line("} ;")
        line("union mixed_" k " {")
        line("long number ;")
        line("unsigned char bytes [ 8 ] ;")
        line("} ;")
    }
    for (k = 1; k <= n; k++) {
        line("static struct pair_" k " pair_of_" k " ;")
        line("extern unsigned long total_" k " [ 4 ] ;")
        line("static int step_" k " ( struct pair_" k " * , int ) ;")
        line("int turn_" k " ( enum color_" k " , ... ) ;")
    }
    line("void * __builtin_memset ( void * , int , unsigned long ) ;")
    line("int main ( void ) ;")
    for (k = 1; k <= n; k++) {
        line("static struct pair_" k " pair_of_" k " = { . first = " k "L , . second [ 1 ] = - " k % 100 + 1 " , . second [ 2 ] = 7 } ;")
        line("unsigned long total_" k " [ 4 ] ;")
    }
    for (k = 1; k <= n; k++)
        part_of_text(k)
    line("int main ( void ) {")
    line("int m ;")
    line("int sum ;")
    line("sum = 0 ;")
    for (k = 1; k <= n; k++) {
        line("m = step_" k " ( ( & pair_of_" k " ) , " k % 10 " ) ;")
        line("sum = ( sum + m ) ;")
    }
    line("return ( sum & 127 ) ;")
    line("}")
}
BEGIN {
    depth = 0
    if (kind == "arithmetic") arithmetic()
    else if (kind == "wide") wide()
    else if (kind == "sieve") sieve()
    else if (kind == "list") list()
    else if (kind == "calls") calls()
    else if (kind == "output") output()
    else if (kind == "room") room()
    else if (kind == "deep") deep()
    else if (kind == "forever") forever()
    else if (kind == "text") text()
    else exit 2
}
