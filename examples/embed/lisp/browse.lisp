; Gabriel's browse: it looks for patterns in a list of units, which have properties. It returns how many are found.

(setq random 21)

(defun next-random ()
  (setq random (remainder (* random 17) 251)))

; The list in another order. It is taken apart.
(defun randomize (l)
  (let ((a nil))
    (while l
      (let ((n (remainder (next-random) (length l))))
        (if (= n 0)
            (progn (setq a (cons (car l) a)) (setq l (cdr l)))
            (let ((x l))
              (while (< 1 n) (setq x (cdr x)) (setq n (- n 1)))
              (setq a (cons (cadr x) a))
              (rplacd x (cddr x))))))
    a))

; Adds n properties that nobody looks for.
(defun add-properties (unit n)
  (while (< 0 n)
    (setq unit (cons (cons n nil) unit))
    (setq n (- n 1)))
  unit)

; n units of m properties; one of them is the patterns, at a place that changes from unit to unit.
(defun make-units (n m patterns)
  (let ((units nil) (i m))
    (while (< 0 n)
      (setq units
            (cons (add-properties (cons (cons 'patterns patterns) (add-properties nil i)) (- m i)) units))
      (setq i (if (= i 0) m (- i 1)))
      (setq n (- n 1)))
    units))

; Whether a pattern matches when its first item, a variable that begins with *, stands for more and more of the data.
(defun match-some (pattern data known)
  (let ((taken nil) (left data) (is-found nil) (is-over nil))
    (while (not (or is-found is-over))
      (setq is-found (match (cdr pattern) left (cons (cons (car pattern) taken) known)))
      (if (null? left)
          (setq is-over t)
          (progn (setq taken (append-to-tail taken (list1 (car left)))) (setq left (cdr left)))))
    is-found))

; Whether a pattern matches whose first item is a variable. The letters are 63, ?, for one item, and 42, *, for some.
(defun match-variable (pattern data known)
  (let ((value (assq (car pattern) known)) (letter (first-letter (car pattern))))
    (cond ((= letter 63)
           (if value
               (match (cons (cdr value) (cdr pattern)) data known)
               (match (cdr pattern) (cdr data) (cons (cons (car pattern) (car data)) known))))
          ((= letter 42)
           (if value
               (match (append (cdr value) (cdr pattern)) data known)
               (match-some pattern data known)))
          (t nil))))

(defun match (pattern data known)
  (cond ((null? pattern) (null? data))
        ((null? data) nil)
        ((or (eq? (car pattern) '?) (eq? (car pattern) (car data))) (match (cdr pattern) (cdr data) known))
        ((eq? (car pattern) '*)
         (or (match (cdr pattern) data known)
             (match (cdr pattern) (cdr data) known)
             (match pattern (cdr data) known)))
        ((pair? (car pattern))
         (and (pair? (car data))
              (match (car pattern) (car data) known)
              (match (cdr pattern) (cdr data) known)))
        (t (match-variable pattern data known))))

; How many of the patterns of a unit a pattern matches.
(defun matches (pattern unit)
  (let ((n 0) (l (cdr (assq 'patterns unit))))
    (while l
      (if (match pattern (car l) nil) (setq n (+ n 1)))
      (setq l (cdr l)))
    n))

(defun investigate (units patterns)
  (let ((n 0))
    (while units
      (let ((l patterns))
        (while l
          (setq n (+ n (matches (car l) (car units))))
          (setq l (cdr l))))
      (setq units (cdr units)))
    n))

(defun browse (n)
  (investigate
    (randomize
      (make-units n 10
        '((a a a b b b b a a a a a b b a a a) (a a b b b b a a (a a) (b b)) (a a a b (b a) b a b a))))
    '((*a ?b *b ?b a *a a *b *a) (*a *b *b *a (*a) (*b)) (? ? * (b a) * ? ?))))
