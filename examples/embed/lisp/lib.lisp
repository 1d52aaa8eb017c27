; The functions on lists that the benchmarks share.

(defun not (a) (null? a))
(defun cadr (l) (car (cdr l)))
(defun cddr (l) (cdr (cdr l)))
(defun caddr (l) (car (cdr (cdr l))))
(defun list1 (a) (cons a nil))
(defun list2 (a b) (cons a (list1 b)))
(defun list3 (a b c) (cons a (list2 b c)))

(defun length (l)
  (let ((n 0))
    (while l (setq n (+ n 1)) (setq l (cdr l)))
    n))

(defun append (a b)
  (if (null? a) b (cons (car a) (append (cdr a) b))))

(defun map (f l)
  (if (null? l) nil (cons (f (car l)) (map f (cdr l)))))

(defun assq (key l)
  (cond ((null? l) nil)
        ((eq? (car (car l)) key) (car l))
        (t (assq key (cdr l)))))

; n times nil
(defun nils (n)
  (let ((l nil))
    (while (< 0 n) (setq l (cons nil l)) (setq n (- n 1)))
    l))

; the list a, with b behind its last pair
(defun append-to-tail (a b)
  (if (null? a)
      b
      (let ((last a))
        (while (cdr last) (setq last (cdr last)))
        (rplacd last b)
        a)))
