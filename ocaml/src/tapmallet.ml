external check_numbers : string -> int * int = "tapmallet_ocaml_check"
external printed : string -> string = "tapmallet_ocaml_run"

type refusal = { number : int; line : int }
type verdict = Accepted | Refused of refusal
type datum = Int of int | Immediate of int | Block of int

type outcome =
  | Not_run of refusal
  | Running of { steps : int }
  | Returned of { value : datum; steps : int }

let check text =
  match check_numbers text with
  | 0, _ -> Accepted
  | number, line -> Refused { number; line }

(* The library prints nothing else: reaching this is a fault of the binding. *)
let not_understood said = failwith ("Tapmallet: taprun's words are not understood: " ^ said)

let datum said =
  Scanf.sscanf said "%c%d%!" (fun kind number ->
      match kind with
      | 'c' -> Int number
      | 'i' -> Immediate number
      | 'b' -> Block number
      | _ -> not_understood said)

let run_joined text =
  let said = printed text in
  Scanf.sscanf said "answer=%d\nline=%d\nstate=%s\nsteps=%d\nvalue=%s\n%!" (fun number line state steps value ->
      match (number, state) with
      | 0, "done" -> Returned { value = datum value; steps }
      | 0, "running" -> Running { steps }
      | 0, _ -> not_understood said
      | _ -> Not_run { number; line })

let begins_with prefix text =
  String.length text >= String.length prefix && String.sub text 0 (String.length prefix) = prefix

let run ~glue ~store =
  match check glue with
  | Refused refusal -> Not_run refusal
  | Accepted -> run_joined (if begins_with "run=" store then glue ^ store else glue)
