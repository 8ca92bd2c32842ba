--  Thin calls of the exported functions; a slice is passed as its address and its length.

with Interfaces.C; use Interfaces.C;
with System;

package body Dispatcher is

   --  The address of a slice without elements is never followed, but it must not be null, and that of lengths is aligned.
   Nowhere : aliased constant Unsigned_16 := 0;

   function Start (B : Bytes) return System.Address is
     (if B'Length = 0 then Nowhere'Address else B (B'First)'Address);

   function Start (B : Board) return System.Address is
     (if B'Length = 0 then Nowhere'Address else B (B'First)'Address);

   function Start (L : Length_List) return System.Address is
     (if L'Length = 0 then Nowhere'Address else L (L'First)'Address);

   function Answered (Number : Unsigned_8) return Answer is (Answer'Val (Number));

   --  The number of an answer that packs more, and what stands above it.
   function Number_In (Packed : Unsigned_64) return Answer is (Answer'Val (Packed mod 256));
   function Value_In (Packed : Unsigned_64) return Unsigned_64 is (Packed / 256);

   function Unpacked (Packed : Unsigned_64) return Verdict is
     (Number  => Number_In (Packed),
      At_Task => Task_Number (Value_In (Packed) mod 256),
      At_Step => Step_Number (Packed / 65536));

   --  A list as bytes for a fresh start or a writing. What is over 255 is no priority, nor is 255; a list of more than Count_Limit
   --  elements is too long, and so is one of Count_Limit.
   Count_Limit : constant := Task_Limit + 1;
   subtype Short is Bytes (1 .. Count_Limit);

   function Length_Of (List : Priority_List) return Natural is (Natural'Min (List'Length, Count_Limit));

   function Shortened (List : Priority_List) return Short is
      Result : Short := (others => 0);
   begin
      for I in 1 .. Length_Of (List) loop
         Result (I) := Unsigned_8 (Priority'Min (List (List'First + (I - 1)), 255));
      end loop;
      return Result;
   end Shortened;

   procedure Fresh (Bases : Priority_List; Ceilings : Priority_List; S : out State; Result : out Answer) is
      function Call
        (Bases    : System.Address;
         Tasks    : size_t;
         Ceilings : System.Address;
         Objects  : size_t;
         S        : System.Address;
         Length   : size_t) return Unsigned_8
        with Import, Convention => C, External_Name => "dispatch_fresh";
      B : constant Short := Shortened (Bases);
      C : constant Short := Shortened (Ceilings);
   begin
      Result :=
        Answered
          (Call
             (B'Address, size_t (Length_Of (Bases)), C'Address, size_t (Length_Of (Ceilings)), S'Address, S'Length));
   end Fresh;

   procedure Enter (S : in out State; Object : Object_Number; Result : out Answer; Change : out Report) is
      function Call (S : System.Address; Length : size_t; Object : Unsigned_64; Report : System.Address) return Unsigned_8
        with Import, Convention => C, External_Name => "dispatch_enter";
      Number : aliased Unsigned_8 := 0;
   begin
      Result := Answered (Call (S'Address, S'Length, Unsigned_64 (Object), Number'Address));
      Change := Report'Val (Number);
   end Enter;

   procedure Leave (S : in out State; Object : Object_Number; Result : out Answer; Change : out Report) is
      function Call (S : System.Address; Length : size_t; Object : Unsigned_64; Report : System.Address) return Unsigned_8
        with Import, Convention => C, External_Name => "dispatch_leave";
      Number : aliased Unsigned_8 := 0;
   begin
      Result := Answered (Call (S'Address, S'Length, Unsigned_64 (Object), Number'Address));
      Change := Report'Val (Number);
   end Leave;

   procedure Delay_For (S : in out State; Length : Ticks; Result : out Answer; Change : out Report) is
      function Call (S : System.Address; Length : size_t; D : Unsigned_16; Report : System.Address) return Unsigned_8
        with Import, Convention => C, External_Name => "dispatch_delay";
      Number : aliased Unsigned_8 := 0;
   begin
      Result := Answered (Call (S'Address, S'Length, Unsigned_16 (Length), Number'Address));
      Change := Report'Val (Number);
   end Delay_For;

   procedure Suspend (S : in out State; Result : out Answer; Change : out Report) is
      function Call (S : System.Address; Length : size_t; Report : System.Address) return Unsigned_8
        with Import, Convention => C, External_Name => "dispatch_suspend";
      Number : aliased Unsigned_8 := 0;
   begin
      Result := Answered (Call (S'Address, S'Length, Number'Address));
      Change := Report'Val (Number);
   end Suspend;

   procedure Release (S : in out State; T : Task_Number; Result : out Answer; Change : out Report) is
      function Call (S : System.Address; Length : size_t; T : Unsigned_64; Report : System.Address) return Unsigned_8
        with Import, Convention => C, External_Name => "dispatch_release";
      Number : aliased Unsigned_8 := 0;
   begin
      Result := Answered (Call (S'Address, S'Length, Unsigned_64 (T), Number'Address));
      Change := Report'Val (Number);
   end Release;

   procedure Clock (S : in out State; Now : Reading; Result : out Answer; Change : out Report) is
      function Call (S : System.Address; Length : size_t; Now : Unsigned_64; Report : System.Address) return Unsigned_8
        with Import, Convention => C, External_Name => "dispatch_clock";
      Number : aliased Unsigned_8 := 0;
   begin
      Result := Answered (Call (S'Address, S'Length, Unsigned_64 (Now), Number'Address));
      Change := Report'Val (Number);
   end Clock;

   procedure Set_Base (S : in out State; T : Task_Number; Base : Priority; Result : out Answer; Change : out Report) is
      function Call (S : System.Address; Length : size_t; T : Unsigned_64; P : Unsigned_64; Report : System.Address) return Unsigned_8
        with Import, Convention => C, External_Name => "dispatch_set";
      Number : aliased Unsigned_8 := 0;
   begin
      Result := Answered (Call (S'Address, S'Length, Unsigned_64 (T), Unsigned_64 (Base), Number'Address));
      Change := Report'Val (Number);
   end Set_Base;

   procedure Work (S : in out State; Result : out Answer; Change : out Report) is
      function Call (S : System.Address; Length : size_t; Report : System.Address) return Unsigned_8
        with Import, Convention => C, External_Name => "dispatch_work";
      Number : aliased Unsigned_8 := 0;
   begin
      Result := Answered (Call (S'Address, S'Length, Number'Address));
      Change := Report'Val (Number);
   end Work;

   procedure Finish (S : in out State; Result : out Answer; Change : out Report) is
      function Call (S : System.Address; Length : size_t; Report : System.Address) return Unsigned_8
        with Import, Convention => C, External_Name => "dispatch_finish";
      Number : aliased Unsigned_8 := 0;
   begin
      Result := Answered (Call (S'Address, S'Length, Number'Address));
      Change := Report'Val (Number);
   end Finish;

   function Is_Sound (S : State) return Boolean is
      function Call (S : System.Address; Length : size_t) return Unsigned_8
        with Import, Convention => C, External_Name => "dispatch_sound";
   begin
      return Answered (Call (S'Address, S'Length)) = Done;
   end Is_Sound;

   function Running (S : State) return Task_Number is
      function Call (S : System.Address; Length : size_t) return Unsigned_8
        with Import, Convention => C, External_Name => "dispatch_running";
   begin
      return Task_Number (Call (S'Address, S'Length));
   end Running;

   pragma Warnings (Off, "formal parameter * is not modified");
   pragma Warnings (Off, "mode could be ""in"" instead of ""in out""");

   procedure Fill (S : State; B : in out Board; Result : out Answer) is
      function Call
        (S : System.Address; Length : size_t; B : System.Address; Board_Length : size_t) return Unsigned_8
        with Import, Convention => C, External_Name => "dispatch_fill";
   begin
      Result := Answered (Call (S'Address, S'Length, Start (B), 3 * B'Length));
   end Fill;

   procedure Next (B : Board; Row : out Row_Number; Result : out Answer) is
      function Call (B : System.Address; Length : size_t) return Unsigned_64
        with Import, Convention => C, External_Name => "dispatch_next";
      Packed : constant Unsigned_64 := Call (Start (B), 3 * B'Length);
   begin
      Row := Row_Number (Value_In (Packed));
      Result := Number_In (Packed);
   end Next;

   function Form (Roster : Bytes) return Verdict is
      function Call (Roster : System.Address; Length : size_t) return Unsigned_64
        with Import, Convention => C, External_Name => "dispatch_form";
   begin
      return Unpacked (Call (Start (Roster), Roster'Length));
   end Form;

   function Check (Roster : Bytes) return Verdict is
      function Call (Roster : System.Address; Length : size_t) return Unsigned_64
        with Import, Convention => C, External_Name => "dispatch_check";
   begin
      return Unpacked (Call (Start (Roster), Roster'Length));
   end Check;

   procedure Base_Of (Roster : Bytes; T : Task_Number; Base : out Priority; Result : out Answer) is
      function Call (Roster : System.Address; Length : size_t; T : Unsigned_64) return Unsigned_64
        with Import, Convention => C, External_Name => "dispatch_base";
      Packed : constant Unsigned_64 := Call (Start (Roster), Roster'Length, Unsigned_64 (T));
   begin
      Base := Priority (Value_In (Packed));
      Result := Number_In (Packed);
   end Base_Of;

   procedure Ceiling_Of (Roster : Bytes; Object : Object_Number; Ceiling : out Priority; Result : out Answer) is
      function Call (Roster : System.Address; Length : size_t; Object : Unsigned_64) return Unsigned_64
        with Import, Convention => C, External_Name => "dispatch_ceiling";
      Packed : constant Unsigned_64 := Call (Start (Roster), Roster'Length, Unsigned_64 (Object));
   begin
      Ceiling := Priority (Value_In (Packed));
      Result := Number_In (Packed);
   end Ceiling_Of;

   procedure Step_Count (Roster : Bytes; T : Task_Number; Count : out Step_Number; Result : out Answer) is
      function Call (Roster : System.Address; Length : size_t; T : Unsigned_64) return Unsigned_64
        with Import, Convention => C, External_Name => "dispatch_step_count";
      Packed : constant Unsigned_64 := Call (Start (Roster), Roster'Length, Unsigned_64 (T));
   begin
      Count := Step_Number (Value_In (Packed));
      Result := Number_In (Packed);
   end Step_Count;

   procedure Script (Roster : Bytes; T : Task_Number; Start : out Natural; Length : out Natural; Result : out Answer) is
      function Number_Call (Roster : System.Address; Length : size_t; T : Unsigned_64) return Unsigned_8
        with Import, Convention => C, External_Name => "dispatch_script_number";
      function Start_Call (Roster : System.Address; Length : size_t; T : Unsigned_64) return Unsigned_64
        with Import, Convention => C, External_Name => "dispatch_script_start";
      function Length_Call (Roster : System.Address; Length : size_t; T : Unsigned_64) return Unsigned_64
        with Import, Convention => C, External_Name => "dispatch_script_length";
      From : constant System.Address := Dispatcher.Start (Roster);
   begin
      Start := Natural (Start_Call (From, Roster'Length, Unsigned_64 (T)));
      Length := Natural (Length_Call (From, Roster'Length, Unsigned_64 (T)));
      Result := Answered (Number_Call (From, Roster'Length, Unsigned_64 (T)));
   end Script;

   procedure Step_Of (Roster : Bytes; T : Task_Number; K : Step_Number; Found : out Step; Result : out Answer) is
      function Call
        (Roster : System.Address; Length : size_t; T : Unsigned_64; K : Unsigned_64) return Unsigned_64
        with Import, Convention => C, External_Name => "dispatch_step";
      Packed : constant Unsigned_64 := Call (Start (Roster), Roster'Length, Unsigned_64 (T), Unsigned_64 (K));
   begin
      Found :=
        (Code => Step_Code'Val ((Packed / 2**8) mod 2**8),
         A    => Unsigned_8 ((Packed / 2**16) mod 2**8),
         B    => Unsigned_16 ((Packed / 2**24) mod 2**16));
      Result := Number_In (Packed);
   end Step_Of;

   procedure Run (Roster : Bytes; Events : Bytes; Buffer : in out Bytes; Result : out Verdict) is
      function Call
        (Roster        : System.Address;
         Length        : size_t;
         Events        : System.Address;
         Events_Length : size_t;
         Buffer        : System.Address;
         Buffer_Length : size_t) return Unsigned_64
        with Import, Convention => C, External_Name => "dispatch_run";
   begin
      Result :=
        Unpacked
          (Call
             (Start (Roster), Roster'Length, Start (Events), Events'Length, Start (Buffer), Buffer'Length));
   end Run;

   function Bytes_Of (Steps : Step_List) return Bytes is
      Result  : Bytes (0 .. Step_Size * Steps'Length - 1);
      At_Byte : Natural := 0;
   begin
      for S of Steps loop
         Result (At_Byte) := Unsigned_8 (Step_Code'Pos (S.Code));
         Result (At_Byte + 1) := S.A;
         Result (At_Byte + 2) := Unsigned_8 (S.B mod 2**8);
         Result (At_Byte + 3) := Unsigned_8 (S.B / 2**8);
         At_Byte := At_Byte + Step_Size;
      end loop;
      return Result;
   end Bytes_Of;

   procedure Write
     (Bases    : Priority_List;
      Ceilings : Priority_List;
      Lengths  : Length_List;
      Steps    : Bytes;
      Buffer   : in out Bytes;
      Result   : out Verdict)
   is
      function Call
        (Bases         : System.Address;
         Tasks         : size_t;
         Ceilings      : System.Address;
         Objects       : size_t;
         Lengths       : System.Address;
         Lengths_Count : size_t;
         Steps         : System.Address;
         Steps_Length  : size_t;
         Buffer        : System.Address;
         Buffer_Length : size_t) return Unsigned_64
        with Import, Convention => C, External_Name => "dispatch_write";
      B : constant Short := Shortened (Bases);
      C : constant Short := Shortened (Ceilings);
   begin
      Result :=
        Unpacked
          (Call
             (B'Address, size_t (Length_Of (Bases)), C'Address, size_t (Length_Of (Ceilings)), Start (Lengths), Lengths'Length,
              Start (Steps), Steps'Length, Start (Buffer), Buffer'Length));
   end Write;

   function Write_Answer
     (Bases : Priority_List; Ceilings : Priority_List; Lengths : Length_List; Steps : Bytes; Room : Natural) return Verdict
   is
      function Call
        (Bases         : System.Address;
         Tasks         : size_t;
         Ceilings      : System.Address;
         Objects       : size_t;
         Lengths       : System.Address;
         Lengths_Count : size_t;
         Steps         : System.Address;
         Steps_Length  : size_t;
         Room          : Unsigned_64) return Unsigned_64
        with Import, Convention => C, External_Name => "dispatch_write_answer";
      B : constant Short := Shortened (Bases);
      C : constant Short := Shortened (Ceilings);
   begin
      return
        Unpacked
          (Call
             (B'Address, size_t (Length_Of (Bases)), C'Address, size_t (Length_Of (Ceilings)), Start (Lengths), Lengths'Length,
              Start (Steps), Steps'Length, Unsigned_64 (Room)));
   end Write_Answer;

   procedure Written
     (Bases    : Priority_List;
      Ceilings : Priority_List;
      Lengths  : Length_List;
      Steps    : Bytes;
      Buffer   : in out Bytes;
      Length   : out Natural)
   is
      function Call
        (Bases         : System.Address;
         Tasks         : size_t;
         Ceilings      : System.Address;
         Objects       : size_t;
         Lengths       : System.Address;
         Lengths_Count : size_t;
         Steps         : System.Address;
         Steps_Length  : size_t;
         Buffer        : System.Address;
         Buffer_Length : size_t) return Unsigned_64
        with Import, Convention => C, External_Name => "dispatch_written";
      B : constant Short := Shortened (Bases);
      C : constant Short := Shortened (Ceilings);
   begin
      Length :=
        Natural
          (Call
             (B'Address, size_t (Length_Of (Bases)), C'Address, size_t (Length_Of (Ceilings)), Start (Lengths), Lengths'Length,
              Start (Steps), Steps'Length, Start (Buffer), Buffer'Length));
   end Written;

end Dispatcher;
