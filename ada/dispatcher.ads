--  The dispatcher's functions for Ada, over libexports.a (rt lib in crates/exports).
--
--  Every function answers for any bytes of any length. An event whose answer is not Done leaves the state as it was.
--  Numbers of different kinds have different types. Each is as wide as a caller can need: one that is out of the dispatcher's
--  range is taken and refused by the dispatcher's own rule, never cut. Only a Delay's ticks and a script's length end at 16 bits.

with Interfaces; use Interfaces;

package Dispatcher with Preelaborate is

   --  The answers, in the order of their numbers in README.md's table: Answer'Pos is the number.
   type Answer is
     (Done,
      No_Such_Task,
      No_Such_Object,
      Bad_Priority,
      Bad_Reading,
      Nobody_Runs,
      Ended_Task,
      Inside_Action,
      Above_Ceiling,
      Not_Innermost,
      Unsound,
      Bad_Length,
      Bad_Mark,
      Bad_Counts,
      Bad_Layout,
      Bad_Values,
      Bad_Step,
      While_Held,
      Low_Ceiling,
      Script_Not_Innermost,
      Other_Task,
      Bad_Events,
      Short_Buffer);

   type Task_Number is mod 2**64;
   type Object_Number is mod 2**64;
   type Step_Number is mod 2**64;
   type Row_Number is mod 2**64;

   --  1 to 32 are priorities; 1 to 30 are Ada's Priority, 31 and 32 its Interrupt_Priority.
   type Priority is mod 2**64;
   First_Priority   : constant Priority := 1;
   Last_Priority    : constant Priority := 32;
   Default_Priority : constant Priority := 15;

   --  A clock reading, in ticks. Bad_Reading is one below now, more than the longest advance past it, or above the last.
   type Reading is mod 2**64;
   Last_Reading    : constant Reading := 281_474_976_710_655;
   Longest_Advance : constant Reading := 86_400_000;

   --  How long a Delay is. A larger number raises Constraint_Error, and as a static value is told by the compiler.
   type Ticks is range 0 .. 65_535;

   --  The most tasks, which are the most rows of a board too, the most objects, and the bytes of a roster. Every size is reckoned
   --  from them.
   Task_Limit      : constant := 64;
   Object_Limit    : constant := 32;
   Smallest_Roster : constant := 14;
   Largest_Roster  : constant := 60_000;

   --  The running task where nobody runs, and the row where nobody is next.
   Nobody     : constant Task_Number := 255;
   Nobody_Row : constant Row_Number := 255;

   type Bytes is array (Natural range <>) of aliased Unsigned_8;

   --  A state as bytes: a head, a row for each task, a ceiling for each object, what each task holds, and a ready queue for each
   --  priority; the latter two begin with their length. docs/LAYOUT.md has the layout. Any bytes are a state, though few are sound.
   Head_Size  : constant := 16;
   Task_Size  : constant := 16;
   Held_Size  : constant := 1 + Object_Limit;
   Ready_Size : constant := 1 + Task_Limit;
   State_Size : constant :=
     Head_Size + Task_Limit * Task_Size + Object_Limit + Task_Limit * Held_Size + Priority'Pos (Last_Priority) * Ready_Size;
   type State is new Bytes (0 .. State_Size - 1);

   --  Bases by task, ceilings by object.
   type Priority_List is array (Natural range <>) of Priority;
   Empty : constant Priority_List (1 .. 0) := (others => 0);

   --  The fresh start: Done, Bad_Counts or Bad_Values, and the state beside it.
   procedure Fresh (Bases : Priority_List; Ceilings : Priority_List; S : out State; Result : out Answer);

   --  Why the processor changed hands at an event, by who runs before and after it: it did not; another task runs and the dispatch
   --  sent the old one to the head of its queue; any other change, from or to nobody too. Report'Pos is the number that a run writes.
   type Report is (Unchanged, Preempted, Changed);

   --  The events. Change is Unchanged with any Result but Done.
   procedure Enter (S : in out State; Object : Object_Number; Result : out Answer; Change : out Report);
   procedure Leave (S : in out State; Object : Object_Number; Result : out Answer; Change : out Report);
   procedure Delay_For (S : in out State; Length : Ticks; Result : out Answer; Change : out Report);
   procedure Suspend (S : in out State; Result : out Answer; Change : out Report);
   procedure Release (S : in out State; T : Task_Number; Result : out Answer; Change : out Report);
   procedure Clock (S : in out State; Now : Reading; Result : out Answer; Change : out Report);
   --  A ready or running task goes to the tail of its queue whatever the value; inside an action the base waits.
   procedure Set_Base (S : in out State; T : Task_Number; Base : Priority; Result : out Answer; Change : out Report);
   procedure Work (S : in out State; Result : out Answer; Change : out Report);
   procedure Finish (S : in out State; Result : out Answer; Change : out Report);

   function Is_Sound (S : State) return Boolean;

   --  The running task, or Nobody.
   function Running (S : State) return Task_Number;

   --  A board has one row per task. A row says where the task is, its active priority, and its position in its ready queue.
   type Place is (Is_Running, Is_Ready, Is_Delayed, Is_Suspended, Is_Ended) with Size => 8;
   type Active_Priority is mod 2**8;
   type Queue_Position is mod 2**8;
   type Row is record
      Kind     : Place;
      Active   : Active_Priority;
      Position : Queue_Position;
   end record with Size => 24;
   for Row use record
      Kind     at 0 range 0 .. 7;
      Active   at 1 range 0 .. 7;
      Position at 2 range 0 .. 7;
   end record;
   type Board is array (Natural range <>) of Row with Component_Size => 24;

   --  Fills the first rows, one per task, and no others: Done; or Unsound, then Bad_Counts for too few rows, and nothing.
   procedure Fill (S : State; B : in out Board; Result : out Answer);

   --  The next row, counted from 0, or Nobody_Row; refused with Bad_Counts or Bad_Priority, and Nobody_Row beside it.
   procedure Next (B : Board; Row : out Row_Number; Result : out Answer);

   --  What a roster's form or check, a run or a writing answers; the place is 0, 0 unless a fault is named.
   type Verdict is record
      Number  : Answer;
      At_Task : Task_Number;
      At_Step : Step_Number;
   end record;

   function Form (Roster : Bytes) return Verdict;
   function Check (Roster : Bytes) return Verdict;

   --  What a roster says: Done and a value, or Bad_Length to Bad_Step, then No_Such_Task or No_Such_Object, and 0.
   procedure Base_Of (Roster : Bytes; T : Task_Number; Base : out Priority; Result : out Answer);
   procedure Ceiling_Of (Roster : Bytes; Object : Object_Number; Ceiling : out Priority; Result : out Answer);
   procedure Step_Count (Roster : Bytes; T : Task_Number; Count : out Step_Number; Result : out Answer);

   --  Where a task's script stands in the roster, in bytes from its first; on a refusal it starts at 0 and is empty.
   procedure Script (Roster : Bytes; T : Task_Number; Start : out Natural; Length : out Natural; Result : out Answer);

   --  A step of a script, its code and operands; docs/FORMAT.md has them. At and past the script's end it is Finish_Step.
   type Step_Code is
     (Finish_Step, Enter_Step, Leave_Step, Delay_Step, Work_Step, Suspend_Step, Release_Step, Set_Step, Again_Step);
   type Step is record
      Code : Step_Code;
      A    : Unsigned_8;
      B    : Unsigned_16;
   end record;
   procedure Step_Of (Roster : Bytes; T : Task_Number; K : Step_Number; Found : out Step; Result : out Answer);

   --  Three bytes per event into Buffer: the number of the answer, the running task or 255, and the number of the report. A refused
   --  run writes nothing.
   Reply_Size : constant := 3;
   procedure Run (Roster : Bytes; Events : Bytes; Buffer : in out Bytes; Result : out Verdict);

   --  What a roster is written from, beside its bases and ceilings: how many steps each script has, a larger number raising
   --  Constraint_Error; and the bytes of the steps, all scripts one after the other in task order.
   Step_Size : constant := 4;
   type Script_Length is range 0 .. 65_535 with Size => 16;
   type Length_List is array (Natural range <>) of aliased Script_Length with Component_Size => 16;
   type Step_List is array (Natural range <>) of Step;
   function Bytes_Of (Steps : Step_List) return Bytes;

   --  Writes a roster at the front of Buffer; bytes past it stay. Refused with Bad_Counts; Bad_Layout for lengths that are not one
   --  per base or do not add up to the steps; Bad_Values; Bad_Step; then Bad_Length for more than Largest_Roster bytes; then
   --  Short_Buffer for a buffer that is shorter than the roster: nothing is written then. While_Held to Other_Task are left to Check.
   procedure Write
     (Bases    : Priority_List;
      Ceilings : Priority_List;
      Lengths  : Length_List;
      Steps    : Bytes;
      Buffer   : in out Bytes;
      Result   : out Verdict);

   --  What Write answers with a buffer of Room bytes.
   function Write_Answer
     (Bases : Priority_List; Ceilings : Priority_List; Lengths : Length_List; Steps : Bytes; Room : Natural) return Verdict;

   --  Writes as Write does; Length is how many bytes the roster at the front of Buffer has, 0 on a refusal, which Write_Answer tells.
   procedure Written
     (Bases    : Priority_List;
      Ceilings : Priority_List;
      Lengths  : Length_List;
      Steps    : Bytes;
      Buffer   : in out Bytes;
      Length   : out Natural);

end Dispatcher;
