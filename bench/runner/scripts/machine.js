function $resume($frame){
  for(;;){
    switch($frame[0]){
      case 0:
      $frame[1] = 0;
      $frame[2] = 1;
      $frame[0] = 1;
      break;
      case 1:
      if($frame[1] < $frame[3]){
        $frame[0] = 2;
      }else{
        $frame[0] = 5;
      }
      break;
      case 2:
      $frame[2] = $frame[2] * 69069 + 1 >>> 0;
      if(($frame[2] & 256) === 0){
        $frame[0] = 3;
        break;
      }
      $frame[0] = 4;
      break;
      case 3:
      $frame[4] = $frame[4] + $frame[1] | 0;
      $frame[0] = 4;
      case 4:
      $frame[1] = $frame[1] + 1;
      $frame[0] = 1;
      break;
      case 5:
      return true;
      default:
      return false;
    }
  }
}
function $start(){
  var $frame = [0, 0, 0, 1500000, 0];
  $resume($frame);
  $write(String($frame[4]));
}
$start();
