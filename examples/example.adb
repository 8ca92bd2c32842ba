--  A caller of every kind of function through the Ada package: a state and its events, a board, a roster's check and readers, a run,
--  and a roster written from its parts.

with Ada.Text_IO; use Ada.Text_IO;
with Dispatcher; use Dispatcher;
with Interfaces; use Interfaces;

procedure Example is

   --  The roster and the events of docs/FORMAT.md: two tasks, one protected object, eleven events.
   Roster : constant Bytes :=
     (1, 0, 0, 0, 4, 0, 0, 0, 2, 0, 0, 0,
      3, 0, 5, 0, 1, 0, 0, 0, 2, 0, 0, 0,
      10, 0, 0, 0, 12, 0,
      20, 0, 12, 0, 12, 0,
      20, 0,
      16#52#, 16#35#, 2, 1, 36, 0, 24, 0);
   One_Step : constant Bytes := (3, 0, 0, 0, 0, 0, 0, 0);
   Clock_5  : constant Bytes := (1, 0, 5, 0, 0, 0, 0, 0);
   Clock_4  : constant Bytes := (1, 0, 4, 0, 0, 0, 0, 0);
   Events   : constant Bytes :=
     One_Step & One_Step & Clock_5 & One_Step & One_Step & One_Step & Clock_4 & One_Step & One_Step & One_Step & One_Step;

   S      : State;
   Result : Answer;
   Change : Report;

   procedure Show (Event : String) is
      Runner : constant String :=
        (if Running (S) = Nobody then " nobody" else Task_Number'Image (Running (S)));
   begin
      Put (Event & ":" & Integer'Image (Answer'Pos (Result)) & ", running" & Runner);
   end Show;

   procedure Show_Event (Event : String) is
   begin
      Show (Event);
      Put_Line (", report" & Integer'Image (Report'Pos (Change)));
   end Show_Event;

   procedure Show (Call : String; V : Verdict) is
   begin
      Put_Line
        (Call & ":" & Integer'Image (Answer'Pos (V.Number)) & ", task" & Task_Number'Image (V.At_Task)
         & ", step" & Step_Number'Image (V.At_Step));
   end Show;

   procedure Show_Step (K : Step_Number) is
      Found : Step;
   begin
      Step_Of (Roster, 1, K, Found, Result);
      Put_Line
        ("step" & Step_Number'Image (K) & " of task 1: code" & Integer'Image (Step_Code'Pos (Found.Code))
         & ", a" & Unsigned_8'Image (Found.A) & ", b" & Unsigned_16'Image (Found.B));
   end Show_Step;

   --  The marked cases A and B, a base that is none, one that preempts, and readings that go backwards, too far and as far as may be.
   procedure State_And_Board is
      B    : Board (0 .. 2);
      Head : Row_Number;
   begin
      Fresh ((10, 20, 10), Empty, S, Result);
      Show ("fresh 10 20 10");
      New_Line;
      Set_Base (S, T => 1, Base => 10, Result => Result, Change => Change);
      Show_Event ("set 1 to 10");
      Set_Base (S, T => 1, Base => 257, Result => Result, Change => Change);
      Show_Event ("set 1 to 257");
      Set_Base (S, T => 1, Base => 20, Result => Result, Change => Change);
      Show_Event ("set 1 to 20");
      Clock (S, 5, Result, Change);
      Show_Event ("clock 5");
      Clock (S, 4, Result, Change);
      Show_Event ("clock 4");
      Clock (S, 5 + Longest_Advance + 1, Result, Change);
      Show_Event ("clock 86400006");
      Clock (S, 5 + Longest_Advance, Result, Change);
      Show_Event ("clock 86400005");
      Finish (S, Result, Change);
      Show_Event ("finish");

      Fill (S, B, Result);
      Put_Line ("fill:" & Integer'Image (Answer'Pos (Result)));
      for I in B'Range loop
         Put_Line
           ("row" & Integer'Image (I) & ": place" & Integer'Image (Place'Pos (B (I).Kind))
            & ", priority" & Active_Priority'Image (B (I).Active) & ", position" & Queue_Position'Image (B (I).Position));
      end loop;
      Next (B, Head, Result);
      Put_Line ("next:" & Integer'Image (Answer'Pos (Result)) & ", row" & Row_Number'Image (Head));
   end State_And_Board;

   procedure Show_Run (Lent : Bytes) is
      Replies : Bytes (1 .. Events'Length / 8 * Reply_Size) := (others => 0);
      V       : Verdict;
   begin
      Run (Lent, Events, Replies, V);
      Show ("run", V);
      Put ("replies:");
      for I in Replies'Range loop
         Put ((if I > 1 and then I mod Reply_Size = 1 then "," else "") & Unsigned_8'Image (Replies (I)));
      end loop;
      New_Line;
   end Show_Run;

   procedure Roster_And_Run is
      Low     : Bytes := Roster;
      Base    : Priority;
      Ceiling : Priority;
      Count   : Step_Number;
      Start   : Natural;
      Length  : Natural;
   begin
      Low (36) := 19;
      Show ("check", Check (Roster));
      Show ("check with ceiling 19", Check (Low));
      Base_Of (Roster, 1, Base, Result);
      Step_Count (Roster, 1, Count, Result);
      Script (Roster, 1, Start, Length, Result);
      Put_Line
        ("task 1: base" & Priority'Image (Base) & ", steps" & Step_Number'Image (Count)
         & ", script from" & Natural'Image (Start) & ", length" & Natural'Image (Length));
      Ceiling_Of (Roster, 0, Ceiling, Result);
      Put_Line ("object 0: ceiling" & Priority'Image (Ceiling));
      Show_Step (0);
      Show_Step (3);
      Base_Of (Roster, 2, Base, Result);
      Put_Line ("base of task 2:" & Integer'Image (Answer'Pos (Result)));
      Show_Run (Roster);
   end Roster_And_Run;

   --  The roster from its parts, into more room than it takes; what was written is checked and run. Then three refusals.
   procedure Written_And_Run is
      Bases    : constant Priority_List := (10, 20);
      Ceilings : constant Priority_List := (1 => 20);
      Lengths  : constant Length_List := (3, 3);
      Steps    : constant Bytes :=
        Bytes_Of
          (((Enter_Step, 0, 0), (Work_Step, 0, 0), (Leave_Step, 0, 0),
            (Delay_Step, 0, 5), (Enter_Step, 0, 0), (Leave_Step, 0, 0)));
      Wrong    : Bytes := Steps;
      Buffer   : Bytes (0 .. 59) := (others => 0);
      Length   : Natural;
      V        : Verdict;
   begin
      Write (Bases, Ceilings, Lengths, Steps, Buffer, V);
      Show ("write", V);
      Written (Bases, Ceilings, Lengths, Steps, Buffer, Length);
      Put_Line
        ("written:" & Natural'Image (Length) & " bytes, "
         & (if Buffer (0 .. Length - 1) = Roster then "those of the roster" else "others"));
      Show ("check", Check (Buffer (0 .. Length - 1)));
      Show_Run (Buffer (0 .. Length - 1));

      Wrong (17) := 1;
      Write (Bases, Ceilings, (3, 2), Steps, Buffer, V);
      Show ("write with lengths 3 and 2", V);
      Write (Bases, Ceilings, Lengths, Wrong, Buffer, V);
      Show ("write with an Enter of object 1", V);
      Show ("write into 45 bytes", Write_Answer (Bases, Ceilings, Lengths, Steps, Room => 45));
   end Written_And_Run;

begin
   State_And_Board;
   Roster_And_Run;
   Written_And_Run;
end Example;
