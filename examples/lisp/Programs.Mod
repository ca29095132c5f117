MODULE Programs;  (* Programs in Lisp: a command for each. *)

IMPORT Lisp;

PROCEDURE Numbers*;
BEGIN
  Lisp.RunLine("(+ 1 2 3) (* (+ 1 2) (- 10 4))   ; two values");
  Lisp.RunLine("(div 17 5) (mod 17 5) (div -17 5) (mod -17 5)");
  Lisp.RunLine("(< 3 4) (< 4 3) (= 7 (+ 3 4)) (not 7)");
  Lisp.RunLine("(and 1 2 3) (and 1 () 3) (or () 2 3) (or () ())")
END Numbers;

PROCEDURE Lists*;
BEGIN
  Lisp.RunLine("'(a b c) (cons 1 2) (cons 1 '(2 3)) '(1 (2 3) . 4) ()");
  Lisp.Line("(define (length l)");
  Lisp.Line("  (if (null? l) 0 (+ 1 (length (cdr l)))))");
  Lisp.Line("(define (append a b)");
  Lisp.Line("  (if (null? a) b (cons (car a) (append (cdr a) b))))");
  Lisp.Line("(define (reverse l)");
  Lisp.Line("  (define (onto l done)");
  Lisp.Line("    (if (null? l) done (onto (cdr l) (cons (car l) done))))");
  Lisp.Line("  (onto l ()))");
  Lisp.Run;
  Lisp.RunLine("(length '(a b c)) (append '(a b) '(c d)) (reverse '(1 2 3 4))");
  Lisp.RunLine("(= (reverse '(1 (2) 3)) '(3 (2) 1)) (= '(1 2) '(1 2 3))")
END Lists;

PROCEDURE Functions*;
BEGIN
  Lisp.Line("(define (adder n) (lambda (x) (+ x n)))");
  Lisp.Line("(define (compose f g) (lambda (x) (f (g x))))");
  Lisp.Line("(define (twice f) (compose f f))");
  Lisp.Run;
  Lisp.RunLine("((adder 3) 4) ((compose car cdr) '(1 2 3))");
  Lisp.RunLine("((twice (adder 5)) 1) (((twice twice) (adder 5)) 1)");
  Lisp.RunLine("adder + ((lambda all all) 1 2 3) ((lambda (x . more) more) 1 2 3)")
END Functions;

(* A closure with a variable of its own is an object. *)
PROCEDURE Counters*;
BEGIN
  Lisp.Line("(define (counter)");
  Lisp.Line("  (let ((n 0)) (lambda () (set! n (+ n 1)))))");
  Lisp.Line("(define c (counter))");
  Lisp.Line("(define d (counter))");
  Lisp.Run;
  Lisp.RunLine("(list (c) (c) (d) (c) (d))")
END Counters;

PROCEDURE Sort*;
BEGIN
  Lisp.Line("(define (merge a b before)");
  Lisp.Line("  (cond ((null? a) b)");
  Lisp.Line("        ((null? b) a)");
  Lisp.Line("        ((before (car b) (car a))");
  Lisp.Line("         (cons (car b) (merge a (cdr b) before)))");
  Lisp.Line("        (else (cons (car a) (merge (cdr a) b before)))))");
  Lisp.Line("(define (odds l) (if (null? l) l (cons (car l) (evens (cdr l)))))");
  Lisp.Line("(define (evens l) (if (null? l) l (odds (cdr l))))");
  Lisp.Line("(define (sort l before)");
  Lisp.Line("  (if (or (null? l) (null? (cdr l))) l");
  Lisp.Line("    (merge (sort (odds l) before) (sort (evens l) before) before)))");
  Lisp.Run;
  Lisp.RunLine("(odds '(a b c d e)) (evens '(a b c d e))");
  Lisp.RunLine("(sort '(3 1 4 1 5 9 2 6 5 3 5) <)");
  Lisp.RunLine("(sort '(3 1 4 1 5 9 2 6 5 3 5) (lambda (a b) (< b a)))");
  Lisp.RunLine("(sort '((2 b) (1 x) (2 a) (1 y)) (lambda (a b) (< (car a) (car b))))")
END Sort;

(* Derivatives of sums and products, which are lists. *)
PROCEDURE Derive*;
BEGIN
  Lisp.Line("(define (second l) (car (cdr l)))");
  Lisp.Line("(define (third l) (car (cdr (cdr l))))");
  Lisp.Line("(define (sum a b)");
  Lisp.Line("  (cond ((= a 0) b) ((= b 0) a)");
  Lisp.Line("        ((and (number? a) (number? b)) (+ a b))");
  Lisp.Line("        (else (list '+ a b))))");
  Lisp.Line("(define (product a b)");
  Lisp.Line("  (cond ((or (= a 0) (= b 0)) 0) ((= a 1) b) ((= b 1) a)");
  Lisp.Line("        ((and (number? a) (number? b)) (* a b))");
  Lisp.Line("        (else (list '* a b))))");
  Lisp.Line("(define (derive e x)");
  Lisp.Line("  (cond ((number? e) 0)");
  Lisp.Line("        ((symbol? e) (if (= e x) 1 0))");
  Lisp.Line("        ((= (car e) '+)");
  Lisp.Line("         (sum (derive (second e) x) (derive (third e) x)))");
  Lisp.Line("        (else");
  Lisp.Line("         (sum (product (derive (second e) x) (third e))");
  Lisp.Line("              (product (second e) (derive (third e) x))))))");
  Lisp.Run;
  Lisp.RunLine("(derive '(+ (* 3 x) 7) 'x) (derive '(* x x) 'x)");
  Lisp.RunLine("(derive '(+ (* x (* x x)) (* a x)) 'x)");
  Lisp.RunLine("(derive '(+ (* x (* x x)) (* a x)) 'a)")
END Derive;

(* Queens that don't threaten each other. A board is the list of the columns,
  the last row first. *)
PROCEDURE Queens*;
BEGIN
  Lisp.Line("(define (safe? column rows board)");
  Lisp.Line("  (or (null? board)");
  Lisp.Line("      (and (not (= (car board) column))");
  Lisp.Line("           (not (= (car board) (+ column rows)))");
  Lisp.Line("           (not (= (car board) (- column rows)))");
  Lisp.Line("           (safe? column (+ rows 1) (cdr board)))))");
  Lisp.Line("(define (queens size)");
  Lisp.Line("  (define (place row column board found)");
  Lisp.Line("    (cond ((= row size) (cons board found))");
  Lisp.Line("          ((= column size) found)");
  Lisp.Line("          ((safe? column 1 board)");
  Lisp.Line("           (place row (+ column 1) board");
  Lisp.Line("             (place (+ row 1) 0 (cons column board) found)))");
  Lisp.Line("          (else (place row (+ column 1) board found))))");
  Lisp.Line("  (place 0 0 () ()))");
  Lisp.Run;
  Lisp.RunLine("(queens 4) (queens 5) (queens 6)")
END Queens;

(* An interpreter for a smaller Lisp, in Lisp. What its frame, a list of
  pairs, does not know is the name of a function of the outer one. *)
PROCEDURE Self*;
BEGIN
  Lisp.Line("(define (fourth l) (third (cdr l)))");
  Lisp.Line("(define (known name env)");
  Lisp.Line("  (cond ((null? env) name)");
  Lisp.Line("        ((= name (car (car env))) (cdr (car env)))");
  Lisp.Line("        (else (known name (cdr env)))))");
  Lisp.Line("(define (with names values env)");
  Lisp.Line("  (if (null? names) env");
  Lisp.Line("    (cons (cons (car names) (car values))");
  Lisp.Line("          (with (cdr names) (cdr values) env))))");
  Lisp.Line("(define (values l env)");
  Lisp.Line("  (if (null? l) l (cons (value (car l) env) (values (cdr l) env))))");
  Lisp.Line("(define (call f args)");
  Lisp.Line("  (cond ((pair? f) (value (third f) (with (second f) args (fourth f))))");
  Lisp.Line("        ((= f '+) (+ (car args) (second args)))");
  Lisp.Line("        ((= f '-) (- (car args) (second args)))");
  Lisp.Line("        ((= f '*) (* (car args) (second args)))");
  Lisp.Line("        ((= f '<) (< (car args) (second args)))");
  Lisp.Line("        (else (list 'unknown f))))");
  Lisp.Line("(define (value e env)");
  Lisp.Line("  (cond ((symbol? e) (known e env))");
  Lisp.Line("        ((number? e) e)");
  Lisp.Line("        ((= (car e) 'quote) (second e))");
  Lisp.Line("        ((= (car e) 'if)");
  Lisp.Line("         (value (if (value (second e) env) (third e) (fourth e)) env))");
  Lisp.Line("        ((= (car e) 'lambda) (list 'closure (second e) (third e) env))");
  Lisp.Line("        (else (call (value (car e) env) (values (cdr e) env)))))");
  Lisp.Run;
  Lisp.RunLine("(value '((lambda (x y) (+ (* x x) y)) 7 1) ())");
  Lisp.RunLine("(value '(lambda (x) x) ()) (value '(what 1) ())");
  Lisp.Line("(value '((lambda (f) (f f 6))");
  Lisp.Line("         (lambda (me n) (if (< n 2) 1 (* n (me me (- n 1))))))");
  Lisp.Line("       ())");
  Lisp.Run
END Self;

(* The last thing that a function does takes no stack. *)
PROCEDURE Loop*;
BEGIN
  Lisp.Line("(define (add n sum) (if (= n 0) sum (add (- n 1) (+ sum n))))");
  Lisp.Line("(add 5000 0)");
  Lisp.Run
END Loop;

(* Here + is done after the inner call, so each call waits for the next. *)
PROCEDURE Deep*;
BEGIN
  Lisp.Line("(define (total n) (if (= n 0) 0 (+ n (total (- n 1)))))");
  Lisp.Line("(total 1000)");
  Lisp.Run
END Deep;

(* The calls of Oberon below them are too many: the command ends with trap 13. *)
PROCEDURE TooDeep*;
BEGIN Lisp.RunLine("(total 5000)")
END TooDeep;

PROCEDURE Faults*;
BEGIN
  Lisp.RunLine("(total 10)   ; what was defined has outlived the trap");
  Lisp.RunLine("(car '(1)) (car ()) (car '(2))");
  Lisp.RunLine("(+ 1 nobody)");
  Lisp.RunLine("(+ 1 'a)");
  Lisp.RunLine("(div 1 (- 3 3))");
  Lisp.RunLine("(- 1 2 3)");
  Lisp.RunLine("('(1 2) 3)");
  Lisp.RunLine("((lambda (x y) x) 1)");
  Lisp.RunLine("((lambda (x) x) 1 2)");
  Lisp.RunLine("(set! nobody 1)");
  Lisp.RunLine("(let ((7 8)) 9)");
  Lisp.RunLine("(list 1 2");
  Lisp.RunLine("(list 1 2))");
  Lisp.RunLine("'(1 . 2 3)");
  Lisp.RunLine("123456789012")
END Faults;

END Programs.
