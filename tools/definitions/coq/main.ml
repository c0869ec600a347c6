(* Runs what is made of the definitions on standard input. *)

let input () =
  set_binary_mode_in stdin true;
  let bytes = Buffer.create 65536 in
  (try while true do Buffer.add_channel bytes stdin 1 done with End_of_file -> ());
  Buffer.contents bytes

let () =
  let run = match Sys.argv with
    | [| _; "replay" |] -> Model.Coq_text_script_Output.text
    | [| _; "save" |] -> Model.Coq_text_script_Output.saved_text
    | _ -> failwith "model replay | save, with the text as standard input" in
  let text = input () in
  let codes = List.init (String.length text) (fun at -> Z.of_int (Char.code text.[at])) in
  set_binary_mode_out stdout true;
  List.iter (fun code -> print_char (Char.chr (Z.to_int code))) (run codes)
