(* The binding's calls; then a file of many texts from standard input (docs/GLUE.md), for each of which is printed what tapcheck or taprun prints. It is
   spelled anew from the data of the binding, so that nothing is lost in them. *)
open Tapmallet

let faults = ref 0

let holds what test =
  if not test then begin
    incr faults;
    prerr_endline ("ocaml/test: not so: " ^ what)
  end

(* ---- the calls *)

let glue = "ret=int\nparam=int\nlabel=any,0,any\nreturn=add v0 1\n"

let calls () =
  holds "an accepted text" (check glue = Accepted);
  holds "a refused text" (check "ret=int\nreturn=v0\n" = Refused { number = 4; line = 2 });
  holds "an empty text" (check "" = Refused { number = 2; line = 1 });
  holds "a text with a zero byte" (check "ret=int\000\nreturn=0\n" = Refused { number = 2; line = 1 });
  holds "a text too long" (check (String.make 32769 'x') = Refused { number = 1; line = 0 });
  holds "a run" (run ~glue ~store:"run=9\narg=c-5\n" = Returned { value = Int (-4); steps = 2 });
  holds "a budget that is spent" (run ~glue ~store:"run=1\narg=c5\n" = Running { steps = 1 });
  holds "a store that is refused" (run ~glue ~store:"run=9\narg=i5\n" = Not_run { number = 27; line = 2 });
  holds "an empty store" (run ~glue ~store:"" = Not_run { number = 22; line = 1 });
  holds "a store that begins like glue" (run ~glue:"ret=int\nlabel=\nreturn=0\n" ~store:"label=\nreturn=1\nrun=9\n" = Not_run { number = 22; line = 1 });
  holds "a glue without its last line feed" (run ~glue:"ret=int\nreturn=0" ~store:"run=9\n" = Not_run { number = 2; line = 2 });
  holds "a glue with a store in it" (run ~glue:"ret=int\nreturn=0\nrun=9\n" ~store:"run=9\n" = Not_run { number = 2; line = 3 });
  holds "an immediate" (run ~glue:"ret=value 0\ntype=inf:\nreturn=val 0 -7\n" ~store:"run=1\n" = Returned { value = Immediate (-7); steps = 1 });
  holds "a block"
    (run ~glue:"ret=value 0\ntype=0:0\nparam=value 0\nreturn=v0\n" ~store:"run=1\nblock=0 0 b1\nblock=0 0 b0\narg=b1\n" = Returned { value = Block 1; steps = 1 })

(* ---- many texts *)

let print_answer { number; line } = Printf.printf "answer=%d\nline=%d\n" number line
let accepted = { number = 0; line = 0 }

let print_check text =
  print_answer (match check text with Accepted -> accepted | Refused refusal -> refusal)

let spelled = function
  | Int n -> Printf.sprintf "c%d" n
  | Immediate n -> Printf.sprintf "i%d" n
  | Block k -> Printf.sprintf "b%d" k

let print_run text =
  let print refusal state steps value =
    print_answer refusal;
    Printf.printf "state=%s\nsteps=%d\nvalue=%s\n" state steps value
  in
  match run_joined text with
  | Not_run refusal -> print refusal "none" 0 "none"
  | Running { steps } -> print accepted "running" steps "none"
  | Returned { value; steps } -> print accepted "done" steps (spelled value)

let rec many_texts () =
  match input_line stdin with
  | exception End_of_file -> ()
  | header ->
      Scanf.sscanf header "%s %d%!" (fun program length ->
          let text = really_input_string stdin length in
          if program = "run" then print_run text else print_check text);
      many_texts ()

let () =
  set_binary_mode_in stdin true;
  calls ();
  many_texts ();
  exit (if !faults = 0 then 0 else 1)
