(** The proved checker and stepper for OCaml. [docs/GLUE.md] has the two formats, [docs/ANSWERS.md] what each number means.

    Any string may be given: a text that is too long or misshapen is refused, and no call raises. Every call ends: a run takes at most as many steps as its
    store's budget says. A call needs 512 KiB of the thread's stack. *)

type refusal = {
  number : int;  (** 1 to 13 of a glue text, 21 to 27 of a store text *)
  line : int;  (** counted from 1 in its own text; 0 for 1 and 21 *)
}

type verdict = Accepted | Refused of refusal

(** As a store text spells them: [cN], [iN], [bK]. *)
type datum = Int of int | Immediate of int | Block of int

type outcome =
  | Not_run of refusal  (** the glue or, if that is accepted, the store is refused *)
  | Running of { steps : int }  (** the budget is spent *)
  | Returned of { value : datum; steps : int }

val check : string -> verdict
(** The answer to a glue text. *)

val run : glue:string -> store:string -> outcome
(** A glue text run on a store text. The glue is judged alone first, so that it cannot run into its store, and a store that does not begin with [run=] is
    none: 22 at its line 1. *)

val run_joined : string -> outcome
(** A glue text and a store text in one, the store from the first line on that begins with [run=]. *)

val printed : string -> string
(** What [taprun] prints of a joined text. *)
