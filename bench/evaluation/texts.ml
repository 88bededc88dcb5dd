let rec size l n = match l with [] -> n | _ :: t -> size t (n + 1)
let rec letters n l = if n < 1 then l else letters (n - 1) ('x' :: l)
let rec repeat n l acc = if n < 1 then acc else repeat (n - 1) l (acc + size (l @ l) 0)
let () = print_int (repeat (int_of_string Sys.argv.(1)) (letters 1000 []) 0); print_newline ()
