; Gabriel's deriv: the derivative of an expression by x.

(defun deriv-quotient (a) (list3 '/ (deriv a) a))

(defun deriv (a)
  (cond ((not (pair? a)) (if (eq? a 'x) 1 0))
        ((eq? (car a) '+) (cons '+ (map deriv (cdr a))))
        ((eq? (car a) '-) (cons '- (map deriv (cdr a))))
        ((eq? (car a) '*) (list3 '* a (cons '+ (map deriv-quotient (cdr a)))))
        ((eq? (car a) '/)
         (list3 '-
                (list3 '/ (deriv (cadr a)) (caddr a))
                (list3 '/ (cadr a) (cons '* (list3 (caddr a) (caddr a) (deriv (caddr a)))))))
        (t 'unknown)))
