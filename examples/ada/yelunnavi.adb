--  What the header for C does beside the library's calls.
with System.Storage_Elements; use System.Storage_Elements;

package body Yelunnavi is
   use type System.Address;

   --  The room of a handle that has none: no slot is made there.
   Nowhere : Storage_Array (1 .. 512) := [others => 0] with Alignment => 8;

   function Room_Code (Room : System.Address; Length, Needed : size_t) return Code is
     (if Room = System.Null_Address or else Room mod 8 /= 0 then No_Room elsif Length < Needed then Too_Short else Done);

   function Init (H : out Receiver; Room : System.Address; Length : size_t) return Code is
      Answer : constant Code := Room_Code (Room, Length, Receiver_Room);
   begin
      H.Room := (if Answer = Done then Room else Nowhere'Address);
      if Answer = Done then Receiver_Make (Room); end if;
      return Answer;
   end Init;

   function Init (H : out End_System; Room : System.Address; Length : size_t) return Code is
      Answer : constant Code := Room_Code (Room, Length, End_System_Room);
   begin
      H.Room := (if Answer = Done then Room else Nowhere'Address);
      if Answer = Done then End_System_Make (Room); end if;
      return Answer;
   end Init;

   function Init (H : out Pass; Room : System.Address; Length : size_t) return Code is
      Answer : constant Code := Room_Code (Room, Length, Pass_Room);
   begin
      H.Room := (if Answer = Done then Room else Nowhere'Address);
      if Answer = Done then Pass_Make (Room); end if;
      return Answer;
   end Init;

   function Init (H : out Reader; Room : System.Address; Length : size_t) return Code is
      Answer : constant Code := Room_Code (Room, Length, Reader_Room);
   begin
      H.Room := (if Answer = Done then Room else Nowhere'Address);
      if Answer = Done then Reader_Make (Room); end if;
      return Answer;
   end Init;

   function Init (H : out Queue; Room : System.Address; Length : size_t) return Code is
      Answer : constant Code := Room_Code (Room, Length, Queue_Room);
   begin
      H.Room := (if Answer = Done then Room else Nowhere'Address);
      if Answer = Done then Queue_Make (Room); end if;
      return Answer;
   end Init;
end Yelunnavi;
