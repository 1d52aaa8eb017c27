; Gabriel's div: each second item of a list, by a loop and by recursion.

(defun div-by-loop (l)
  (let ((a nil))
    (while l (setq a (cons (car l) a)) (setq l (cddr l)))
    a))

(defun div-by-recursion (l)
  (if (null? l) nil (cons (car l) (div-by-recursion (cddr l)))))

; Two lists made of one of n items, and whether they are as long as half of it.
(defun div (n)
  (let ((l (nils n)))
    (list2 (length (div-by-loop l)) (length (div-by-recursion l)))))
